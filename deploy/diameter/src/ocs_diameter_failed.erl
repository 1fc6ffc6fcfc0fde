%% Failed-AVP (RFC 6733 7.5): the AVP at fault as it came, alone in its groups; of one that is
%% missing, an example with zeros. The office names a member and no service, so of several services
%% the first that has the member is shown. Called by ocs_diameter_handler for a refused CCR.
-module(ocs_diameter_failed).

-export([failed/3]).

-include_lib("diameter/include/diameter.hrl").

-type decoded() :: #diameter_avp{} | [decoded()].

%% The first AVP of the decoded request that stands at one of the paths.
-spec failed([ocs_diameter_avp:path(), ...], [decoded()], module()) -> ocs_diameter_avp:avps().
failed(Paths, Avps, Dictionary) ->
    Avp = case [A || Path <- Paths, A <- [find(Path, Avps)], A /= none] of
              [Found | _] -> Found;
              [] -> example(lists:last(hd(Paths)), Dictionary)
          end,
    #{'AVP' => [Avp]}.

-spec find(ocs_diameter_avp:path(), [decoded()]) -> none | #diameter_avp{}.
find(Path, Avps) ->
    hd([A || Avp <- Avps, A <- [within(Path, Avp)], A /= none] ++ [none]).

-spec within(ocs_diameter_avp:path(), decoded()) -> none | #diameter_avp{}.
within([Name], [#diameter_avp{name = Name} = Group | _]) ->
    raw(Group);
within([Name], #diameter_avp{name = Name} = Avp) ->
    raw(Avp);
within([Name | [_ | _] = Path], [#diameter_avp{name = Name} = Group | Members]) ->
    case find(Path, Members) of
        none -> none;
        Avp -> (raw(Group))#diameter_avp{data = [Avp]}
    end;
within(_, _) ->
    none.

%% The bytes that came are sent back, not a value that is encoded anew.
-spec raw(#diameter_avp{}) -> #diameter_avp{}.
raw(Avp) ->
    Avp#diameter_avp{name = undefined, value = undefined, type = undefined, index = undefined}.

-spec example(atom(), module()) -> #diameter_avp{}.
example(Name, Dictionary) ->
    {Code, Flags, Vendor} = Dictionary:avp_header(Name),
    {Name, Type} = Dictionary:avp_name(Code, Vendor),
    #diameter_avp{code = Code, vendor_id = Vendor, is_mandatory = Flags band 16#40 /= 0,
                  data = zeros(Type)}.

-spec zeros(atom()) -> binary().
zeros(Type) when Type == 'Unsigned32'; Type == 'Integer32'; Type == 'Enumerated'; Type == 'Time' ->
    <<0:32>>;
zeros(Type) when Type == 'Unsigned64'; Type == 'Integer64' ->
    <<0:64>>;
zeros(_) ->
    <<>>.
