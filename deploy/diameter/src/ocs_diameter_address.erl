%% An address with its port as a text: 127.0.0.1:3868, [::1]:3868.
-module(ocs_diameter_address).

-export([text/1]).

-spec text({inet:ip_address(), inet:port_number()}) -> iodata().
text({Ip, Port}) ->
    Text = inet:ntoa(Ip),
    case tuple_size(Ip) of
        4 -> [Text, $:, integer_to_binary(Port)];
        8 -> [$[, Text, "]:", integer_to_binary(Port)]
    end.
