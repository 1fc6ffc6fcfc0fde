"""The operator's command `office`: words around the program `ocs`, its doors and its databases.

Everything here goes by the words and routes of the program and by existing engines (HAProxy,
systemd, openssl); databases are only read. README.md beside this file says how a word is added."""
