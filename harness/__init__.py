"""What the scripts of checks/ and bench/ share. They use nothing but the standard library.

- `packets`: packets as bytes;
- `sessions`: all bytes that a client sends in a session, and how many it is answered;
- `client`: a client that sends bytes over TCP, and says which have to come back;
- `server`: the program as a server under test;
- `installed`: how a server of Debian is started; `mosquitto` and `redis`: the two that are;
- `journal`: a journal in a folder, by the program check_journal;
- `program`: where the built programs lie, what is loaded before one, and its memory;
- `in_order`: runs that are made several at a time, and looked at in order;
- `patience`: how long a script waits for what does not go on;
- `words`: the words that a script is given, and the checks that they name;
- `debian`: the Debian packages that some scripts need.
"""
