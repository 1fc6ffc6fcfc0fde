"""The doors of an office: HAProxy's configuration, made from the settings.

`configuration.text` is what the words `doors` and `up` take. A request is looked at in one order,
and the first thing that doesn't fit is its answer: length, body, who asks, host, other sites'
pages, a shard's number, target, method, role, type, turns, account, refund."""
