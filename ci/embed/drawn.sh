# Drawn calls beside what the program hotline prints of the same commands; for ci/embed.sh, which reads checks.sh and
# callers.sh first, and sets `hotline`.

# same_inside PROGRAM..: whether each script that was drawn is answered by the program as it was by the library
same_inside() {
    for script in "$scratch"/drawn/*.in; do
        timeout 60 "$@" <"$script" >"$scratch/inside"
        cmp -s "${script%.in}.out" "$scratch/inside" && continue
        diff "${script%.in}.out" "$scratch/inside" | cut -c 1-200 | head -n 6 >"$scratch/difference"
        return 1
    done
}

# drawn PROJECT CALLS SEED: draws calls, and writes those for which the program has commands
drawn() {
    rm -rf "$scratch/drawn"
    mkdir "$scratch/drawn"
    : >"$scratch/difference"
    (timeout 300 "$scratch/fuzz" "$1" "$2" "$3" "$scratch/drawn" $declare >"$scratch/printed") 2>/dev/null
}

# wrong_models: drawn calls find a plain model with one wrong line. Each has a project, a file, a name, and what sed makes of the file
wrong_models() {
    while read -r project file name edit; do
        wrong=$scratch/wrong_$file.c
        sed "$edit" "ci/embed/$file.c" >"$wrong"
        [ "$(diff "ci/embed/$file.c" "$wrong" | grep -c '^>')" -eq 1 ] && eval "$file=\$wrong" && compiled_fuzz
        report $? "the model with $name isn't built"
        eval "$file="
        ! (timeout 300 "$scratch/fuzz" $project.toml 1000000 3 >"$scratch/printed") 2>/dev/null </dev/null
        report $? "drawn calls don't find the model with $name"
    done <<'END'
examples/tool_changer model older_frames_that_confirm s/ || known->serial != sending->serial//
examples/tool_changer model writes_answered_after_a_loss s/ || sending->losses < model->losses_at_write//
examples/tool_changer model slaves_that_are_lost_with_another s/\.station != station)/.station < station)/
examples/tool_changer model stale_answers_that_shrink_what_is_held s/outcome.expected = 1, outcome.got = got;/& if (outcome.kind == ZANGJULF_SENT_AGAIN \&\& got == 1 \&\& known_of((struct model *)model, head->station, head->number)) readiness_answered((struct readiness *)\&model->readiness, head->station, head->number, known_of((struct model *)model, head->station, head->number)->bytes, head->length);/
examples/tool_changer readiness own_blocks_alone s/return held->is_unknown ? 0xff : own | held->names;/return held->is_unknown ? own : own;/
examples/tool_changer readiness last_known_bytes_alone s/names |= named_by(bytes, size);/names |= 0 \& named_by(bytes, size);/
examples/tool_changer readiness foreign_blocks_alone s/own = named_by(bytes, block.size);/own = 0 \& named_by(bytes, block.size);/
examples/tool_changer readiness sync_managers_that_are_not_judged s/if (!is_fmmu(number)) return own;/if (!is_fmmu(number)) return 0;/
examples/tool_changer readiness disconnected_slaves_forgotten s/slave->is_in_line || slave->is_unplugged/true/
examples/tool_changer readiness registers_unknown_at_the_first_connection_alone s/held_of(readiness, station, number)->is_unknown = true;/held_of(readiness, station, number);/
examples/tool_changer readiness unplugged_slaves_that_count s/slave->is_in_line || slave->is_unplugged/slave->is_in_line/
examples/tool_changer task_epochs task_epochs_that_no_edit_raises s/epochs->tasks\[task\] = epochs->epoch;/;/
examples/tool_changer task_epochs task_epochs_that_each_edit_raises s/if (figures\[task\] == epochs->figures\[task\]) continue;/;/
examples/tool_changer task_epochs posts_and_values_of_epochs_to_come s/ \&\& epoch <= epochs->epoch//
examples/tool_changer task_epochs posts_of_the_present_epoch_alone s/epoch >= epochs->tasks\[task\]/epoch >= epochs->epoch + 0 * task/
ci/embed/small_edits task_epochs register_blocks_that_are_not_compared s/take_areas(figures, line, station);/if (!line) &/
ci/embed/small_edits task_epochs places_that_are_not_compared s/take_place(figures, line, epochs->variables\[i\]);/if (!line) &/
ci/embed/small_edits model data_that_stay_in_a_changed_task s/if (changed >> task \& 1)/if (changed >> task \& 0)/
examples/tool_changer model data_that_no_edit_leaves s/if (changed >> task \& 1)/if (changed >> task | 1)/
examples/tool_changer model old_data_that_are_complete s/history->has_data \&\& history->data >= model->first_serials\[task\]/history->has_data/
examples/tool_changer model slaves_that_come_uncleared s/if (cleared.declared\[i\].has_come)/if (!line)/
examples/tool_changer seated older_posts_that_win s/box->posts++;/& if (box->waits) return ZANGJULF_DONE;/
examples/tool_changer seated showings_that_count_twice s/.showing = ++box->showings/.showing = box->showings += 2/
examples/tool_changer seated outputs_of_the_image_alone s/return is_own ?/return is_own \&\& !view ?/
examples/tool_changer seated own_posts_of_any_epoch s/box->post.epoch >= view->task_epoch/box->post.epoch + 1/
examples/tool_changer seated refused_posts_that_are_not_told s/.is_refused = box->is_refused/.is_refused = 0/
examples/tool_changer seated lines_that_are_never_closed s/if (view->line > ZANGJULF_LINE_OPEN)/if (view->line > 3)/
END
}

# compare_drawn: drawn calls beside the program, in four projects; then wrong programs and wrong libraries
compare_drawn() {
    declare=
    printf '%%%%\ndeclare\n%%%%\n' | "$hotline" | grep -q '^declare fault' && declare=declare
    [ -n "$declare" ] || echo "embed: the program has no command for a declaration; those that are drawn aren't compared"
    commands=0
    for project in examples/tool_changer.in examples/bit_terminals.in examples/two_groups.in ci/embed/small_edits.toml; do
        for seed in 1 2; do
            drawn $project 30000 $seed && same_inside "$hotline"
            report $? "calls drawn of $project by seed $seed: < is answered from C, > is printed inside" ||
                cat "$scratch/printed" "$scratch/difference"
            commands=$((commands + $(sed -n 's/.*, \([0-9]*\) of them written as commands.*/\1/p' "$scratch/printed")))
        done
    done
    echo "embed: $commands commands are answered from C as inside the language"
    [ "$commands" -ge 20000 ]
    report $? "fewer than 20,000 commands were compared"
    drawn examples/tool_changer.in 30000 3
    for way in byte line epoch; do
        ! same_inside "$scratch/wrong" $way "$hotline"
        report $? "drawn calls agree with a program with another $way"
    done
    for name in place read read=2 read=3 read=4 read=5 read=6 connect arrive arrive=2 send next_write slave_lost slave_lost=2 preview post post=2 post=3 close \
        counters expected_of owed_block get_value put_bits; do
        compiled_fuzz ci/embed/wrong.c -DWRONG_$name -Wl,--wrap=zangjulf_${name%=*}
        report $? "the wrong $name isn't built"
        ! { drawn examples/tool_changer.in 30000 3 && same_inside "$hotline"; }
        report $? "drawn calls don't find the wrong $name"
    done
    # what the program has no command for is found by the model alone
    for name in next_writes next_writes=2 next_writes=3 further_writes further_writes=2 arrive=3 places connect=2 open put_value put_value=2 send=2 send=3 send=4 seat_open look_open \
        look_open=2 seat_close show show=2 seat_view seat_view=2 seat_view=3 seat_view=4 seat_view=5 seat_view=6 seat_view=7 seat_view=8 seat_view_in_place \
        seat_view_in_place=2 seat_view_in_place=3 seat_view_in_place=4 seat_outputs \
        seat_post seat_post=2 seat_post=3 seat_post=4 seat_post=5 take_posts take_posts=2 ready held_by cleared unplugged; do
        compiled_fuzz ci/embed/wrong.c -DWRONG_$name -Wl,--wrap=zangjulf_${name%=*}
        report $? "the wrong $name isn't built"
        ! (timeout 300 "$scratch/fuzz" examples/tool_changer.in 100000 3 >"$scratch/printed") 2>/dev/null
        report $? "drawn calls don't find the wrong $name"
    done
    # and so is, by tasks at full speed, an image that goes back, outputs that are torn, and a post that is dropped
    for name in seat_view=4 seat_outputs seat_post=3; do
        compiled seat_threads -O2 -pthread ci/embed/wrong.c -DWRONG_$name -Wl,--wrap=zangjulf_${name%=*}
        report $? "the wrong $name isn't built"
        ! (timeout 60 "$scratch/seat_threads" 100001 >"$scratch/printed") 2>/dev/null
        report $? "tasks at full speed don't find the wrong $name"
    done
    wrong_models
}
