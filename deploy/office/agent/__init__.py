"""The service `office agent`: what the office's page needs and the program has no route for.

`server.serve` is what the word `agent` calls. It answers JSON over HTTP/1.1 at a UNIX socket that
HAProxy alone reaches, for the operators' doors and, with one target, for a shop's; `routes` has what
it answers. Each answer says as of when."""
