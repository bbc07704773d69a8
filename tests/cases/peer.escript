#!/usr/bin/env escript
%% The independent encoder and decoder: answers requests with Erlang's ASN.1
%% (unaligned PER) over an ASN.1 module.
%%
%% Use: peer.escript MODULE FOLDER REQUESTS ANSWERS
%% What the compiler writes goes to FOLDER. Each line of the file REQUESTS is one of
%%   {encode, Type, Value}
%%   {decode, Type, "hexadecimal"}
%% and gets one line of JSON in the file ANSWERS:
%%   {"bytes": hexadecimal}, or {"error": reason}
%%   {"value": value, "rest": number of bits behind the value}, or {"error": reason}
%% A line before all others gives the names of the bits of each bit string, since the
%% decoder gives those bits by name: {"named": {type: {name: place}}}.
%%
%% In JSON a SEQUENCE is an object, a CHOICE a list of name and value, an OCTET STRING
%% hexadecimal, an IA5String a list of numbers, an ENUMERATED its item's name, a BIT STRING
%% the list of the bits that are 1, by name, or ["bit", place] for a bit without a name.
-mode(compile).

main([Module, Folder, Requests, Answers]) ->
    %% undec_rest: without it the number of bits behind the value would stay unknown
    case asn1ct:compile(Module, [uper, maps, undec_rest, {outdir, Folder}]) of
        ok -> ok;
        Other ->
            io:format(standard_error, "refused by the compiler: ~0p~n", [Other]),
            halt(1)
    end,
    true = code:add_patha(Folder),
    Codec = list_to_atom(filename:basename(Module, ".asn")),
    {ok, In} = file:open(Requests, [read, raw, binary, {read_ahead, 1 bsl 20}]),
    {ok, Out} = file:open(Answers, [write, raw, binary, {delayed_write, 1 bsl 20, 1000}]),
    ok = file:write(Out, [json(#{named => named(Folder, Codec)}), $\n]),
    each(In, Out, Codec),
    ok = file:close(Out).

each(In, Out, Codec) ->
    case file:read_line(In) of
        eof -> ok;
        {ok, Line} ->
            {ok, Tokens, _} = erl_scan:string(binary_to_list(Line) ++ "."),
            {ok, Request} = erl_parse:parse_term(Tokens),
            ok = file:write(Out, [json(answer(Codec, Request)), $\n]),
            each(In, Out, Codec)
    end.

answer(Codec, {encode, Type, Value}) ->
    case Codec:encode(Type, Value) of
        {ok, Bytes} -> #{bytes => Bytes};
        {error, Reason} -> #{error => reason(Reason)}
    end;
answer(Codec, {decode, Type, Hexadecimal}) ->
    case Codec:decode(Type, binary:decode_hex(list_to_binary(Hexadecimal))) of
        {ok, Value, Rest} -> #{value => Value, rest => bit_size(Rest)};
        {error, Reason} -> #{error => reason(Reason)}
    end.

%% the reason without the places in the decoder's code
reason({asn1, {Reason, _}}) -> {text, io_lib:format("~0P", [Reason, 12])};
reason(Reason) -> {text, io_lib:format("~0P", [Reason, 12])}.

named(Folder, Codec) ->
    {ok, Table} = ets:file2tab(filename:join(Folder, atom_to_list(Codec) ++ ".asn1db")),
    maps:from_list([{Name, maps:from_list(Bits)} ||
        {Name, {typedef, _, _, _, {type, _, {'BIT STRING', Bits}, _, _, _}}} <- ets:tab2list(Table)]).

json({text, Text}) -> [$", [escape(Character) || Character <- lists:flatten(Text)], $"];
json(Map) when is_map(Map) ->
    [${, lists:join($,, [[json(Key), $:, json(Value)] || {Key, Value} <- lists:sort(maps:to_list(Map))]), $}];
json(Tuple) when is_tuple(Tuple) -> json(tuple_to_list(Tuple));
json(List) when is_list(List) -> [$[, lists:join($,, [json(One) || One <- List]), $]];
json(Number) when is_integer(Number) -> integer_to_list(Number);
json(Atom) when is_atom(Atom) -> json({text, atom_to_list(Atom)});
json(Octets) when is_binary(Octets) -> [$", binary:encode_hex(Octets), $"];
%% only a bit string of an extension has no names
json(Bits) when is_bitstring(Bits) -> json({text, io_lib:format("~0p", [Bits])}).

escape($") -> "\\\"";
escape($\\) -> "\\\\";
escape(Character) when Character < 32; Character > 126 -> "?";
escape(Character) -> Character.
