"""EtherCAT frames in plain Python, and a simulated line: its slaves are the library's, or in plain Python if there is no library."""
