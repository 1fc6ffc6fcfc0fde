%% Gateways' certificates: the host that one names, and the revocation lists (ssl_crl_cache_api),
%% which are read again at a reload. Called by ocs_diameter_tls, and by ssl in a handshake.
-module(ocs_diameter_certificate).
-behaviour(ssl_crl_cache_api).

-export([load/1, is_revoked/1, is_named/2]).
-export([lookup/3, select/2, fresh_crl/2]).

-include_lib("public_key/include/public_key.hrl").

%% Reads the revocation lists of these ports.
-spec load([ocs_diameter_tls:tls()]) -> ok | {error, term()}.
load(Ports) ->
    Files = lists:usort([F || #{crlfile := F} <- Ports]),
    Read = [{F, read(F)} || F <- Files],
    case [{F, Reason} || {F, {error, Reason}} <- Read] of
        [] ->
            persistent_term:put(?MODULE, lists:append([Lists || {_, {ok, Lists}} <- Read]));
        [{File, Reason} | _] ->
            {error, {revocation_list, File, Reason}}
    end.

%% The lists of a file, each of which can be taken apart.
-spec read(string()) -> {ok, [binary(), ...]} | {error, unread | file:posix() | badarg}.
read(File) ->
    case file:read_file(File) of
        {ok, Pem} ->
            try [Der || {'CertificateList', Der, _} <- public_key:pem_decode(Pem),
                        is_list(revoked(Der))] of
                [] -> {error, unread};
                Lists -> {ok, Lists}
            catch
                error:_ -> {error, unread}
            end;
        {error, _} = Not ->
            Not
    end.

%% Whether its authority's list has a certificate.
-spec is_revoked(binary()) -> boolean().
is_revoked(Certificate) ->
    #'OTPTBSCertificate'{issuer = Issuer, serialNumber = Serial} = signed(Certificate),
    lists:any(fun(Der) -> lists:member(Serial, revoked(Der)) end, select(Issuer, none)).

%% The serial numbers of a revocation list.
-spec revoked(binary()) -> [integer()].
revoked(Der) ->
    #'CertificateList'{tbsCertList = List} = public_key:der_decode('CertificateList', Der),
    case List#'TBSCertList'.revokedCertificates of
        asn1_NOVALUE -> [];
        Rows -> [element(2, Row) || Row <- Rows]
    end.

%% Whether a certificate names the host: in its DNS names, or where it has none in its common name
%% (RFC 6125).
-spec is_named(binary(), unicode:chardata()) -> boolean().
is_named(Certificate, Host) ->
    #'OTPTBSCertificate'{subject = Subject, extensions = Given} = signed(Certificate),
    Extensions = case Given of
                     asn1_NOVALUE -> [];
                     _ -> Given
                 end,
    Dns = [N || #'Extension'{extnID = ?'id-ce-subjectAltName', extnValue = Names} <- Extensions,
                {dNSName, N} <- Names],
    Named = case Dns of
                [] -> common_names(Subject);
                _ -> Dns
            end,
    lists:any(fun(N) -> string:equal(N, Host, true) end, Named).

%% What its authority has signed.
-spec signed(binary()) -> #'OTPTBSCertificate'{}.
signed(Certificate) ->
    #'OTPCertificate'{tbsCertificate = Signed} = public_key:pkix_decode_cert(Certificate, otp),
    Signed.

-spec common_names(term()) -> [unicode:chardata()].
common_names({rdnSequence, Sets}) ->
    [case Value of
         {_, Text} -> Text;
         Text -> Text
     end || Set <- Sets,
            #'AttributeTypeAndValue'{type = ?'id-at-commonName', value = Value} <- Set].

%% ------------------------------------------------------------------------------------------------
%% ssl_crl_cache_api
%% ------------------------------------------------------------------------------------------------
-spec lookup(term(), term(), term()) -> [binary()].
lookup(_, Issuer, Handle) ->
    select(Issuer, Handle).

%% The lists of this authority.
-spec select(term(), term()) -> [binary()].
select(Names, Handle) when is_list(Names) ->
    lists:append([select(Issuer, Handle) || {directoryName, Issuer} <- Names]);
select(Issuer, _) ->
    [Der || Der <- persistent_term:get(?MODULE, []), is_by(Der, Issuer)].

-spec fresh_crl(term(), binary()) -> binary().
fresh_crl(_, Crl) ->
    Crl.

%% ssl names an issuer by the text of its certificate's fields in one call and by their bytes in
%% another.
-spec is_by(binary(), term()) -> boolean().
is_by(Der, Issuer) ->
    #'CertificateList'{tbsCertList = #'TBSCertList'{issuer = Bytes}} =
        public_key:der_decode('CertificateList', Der),
    By = [public_key:pkix_normalize_name(I) || I <- [Bytes, public_key:pkix_crl_issuer(Der)]],
    lists:member(public_key:pkix_normalize_name(Issuer), By).
