#!/usr/bin/env escript
%% Compiles an ASN.1 module with Erlang's compiler for unaligned PER and writes
%% every type, as the compiler understood it, as plain text.
%%
%% Use: dump.escript MODULE FOLDER FILE
%% What the compiler writes goes to FOLDER, the plain text to FILE.
%%
%% Kinds, bounds, sizes, items, marks and order come from the compiler's
%% database of checked types. That database has, in place of the name of a
%% simple type, what the name stands for; so the names of the types that
%% components refer to come from the compiler's parse of the module, and each
%% is held against the database. A form that isn't expected here ends the
%% program with an error, so that nothing is passed over. The forms are those of
%% Erlang's asn1 5.0.21.

main([Module, Folder, File]) ->
    compile(Module, [uper, maps, {outdir, Folder}]),
    compile(Module, [uper, parse, {outdir, Folder}]),
    Base = filename:join(Folder, filename:basename(Module, ".asn")),
    Written = written(Base ++ ".parse"),
    Checked = checked(Base ++ ".asn1db", Written),
    Lines = [lines(atom_to_list(Name), Type, maps:get(Name, Checked), Checked) || {Name, Type} <- Written],
    ok = file:write_file(File, [top() | Lines]).

compile(Module, Options) ->
    case asn1ct:compile(Module, Options) of
        ok -> ok;
        Other -> stop("refused by the compiler: ~0p", [Other])
    end.

stop(Format, Values) ->
    io:format(standard_error, Format ++ "~n", Values),
    halt(1).

top() ->
    "# Every type of tests/asn1/LteV2x.asn, as Erlang's ASN.1 compiler understood it; written by tests/asn1/run --dump.\n"
    "#\n"
    "# A line that begins with # is a comment. Any other line is words parted by spaces; one that\n"
    "# begins with two spaces belongs to the type above it.\n"
    "#\n"
    "# integer NAME LOWEST HIGHEST\n"
    "# enumerated NAME closed|extensible COUNT    then COUNT lines, in ascending order of number (the first has index 0):\n"
    "#   item NUMBER NAME\n"
    "# sequence NAME closed|extensible COUNT      then COUNT lines, in written order:\n"
    "#   component NAME TYPE mandatory|optional\n"
    "# choice NAME closed|extensible COUNT        then COUNT lines, in order of index (the first has index 0):\n"
    "#   alternative NAME TYPE\n"
    "# list NAME closed|extensible LEAST MOST ITEM\n"
    "#\n"
    "# TYPE and ITEM are the NAME of a type of this file. A type that stands inside another without a name\n"
    "# is called Parent.component, and stands before its parent. BIT STRING, OCTET STRING and IA5String are\n"
    "# lists of bit, octet and character; these three aren't in the module and have their bounds from X.691\n"
    "# (16, 17 and 30). An extensible list is one whose size is extensible.\n"
    "integer bit 0 1\n"
    "integer octet 0 255\n"
    "integer character 0 127\n".

%% the types as the compiler parsed them: names and types, in written order
written(File) ->
    {ok, Text} = file:read_file(File),
    {ok, Tokens, _} = erl_scan:string(unicode:characters_to_list(Text) ++ "."),
    {ok, {module, _, _, _, 'AUTOMATIC', _, _, _, Definitions}} = erl_parse:parse_term(Tokens),
    lists:map(fun({typedef, _, _, Name, Type}) -> {Name, Type} end, Definitions).

%% the same types as the compiler checked them, by name
checked(File, Written) ->
    {ok, Table} = ets:file2tab(File),
    %% a database for another encoding would have other constraints
    [{_, {_, {uper, _}}}] = ets:lookup(Table, '__version_and_erule__'),
    maps:from_list([{Name, one(Name, ets:lookup(Table, Name))} || {Name, _} <- Written]).

one(Name, [{Name, {typedef, true, _, Name, Type}}]) -> Type.

%% the lines of a type, as it was parsed and as it was checked
lines(Name, _, {type, _, 'INTEGER', [{'ValueRange', {Lowest, Highest}}], _, _}, _) ->
    io_lib:format("integer ~s ~w ~w~n", [Name, Lowest, Highest]);
lines(Name, _, {type, _, {'ENUMERATED', Items}, [], _, _}, _) ->
    {Mark, Root} = marked(Items),
    [head(enumerated, Name, Mark, Root),
     lists:map(fun({Item, Number}) -> io_lib:format("  item ~w ~s~n", [Number, Item]) end, lists:keysort(2, Root))];
lines(Name, {type, _, {'SEQUENCE', _, _, _, Written}, _, _, _}, {type, _, {'SEQUENCE', _, _, _, Components}, [], _, _}, Types) ->
    {Mark, Root} = marked(Components),
    Parts = [part(Name, Component, Written, Types) || Component <- Root],
    [[Inside || {_, _, _, Inside} <- Parts],
     head(sequence, Name, Mark, Root),
     [io_lib:format("  component ~s ~s ~s~n", [Component, Type, Presence]) || {Component, Type, Presence, _} <- Parts]];
lines(Name, {type, _, {'CHOICE', Written}, _, _, _}, {type, _, {'CHOICE', Alternatives}, [], _, _}, Types) ->
    {Mark, Root} = marked(Alternatives),
    %% the index is by tag, and automatic tags number the alternatives as written
    Tags = [{'CONTEXT', Index} || Index <- lists:seq(0, length(Root) - 1)],
    Tags = lists:append([Tag || {'ComponentType', _, _, _, _, Tag, _} <- Root]),
    Parts = [part(Name, Alternative, Written, Types) || Alternative <- Root],
    [[Inside || {_, _, _, Inside} <- Parts],
     head(choice, Name, Mark, Root),
     lists:map(fun({Alternative, Type, mandatory, _}) -> io_lib:format("  alternative ~s ~s~n", [Alternative, Type]) end, Parts)];
lines(Name, {type, _, {'SEQUENCE OF', Written}, _, _, _}, {type, _, {'SEQUENCE OF', Item}, [{'SizeConstraint', Size}], _, _}, Types) ->
    {ItemName, Inside} = refer(Name ++ ".item", Written, Item, Types),
    [Inside, list(Name, Size, ItemName)];
lines(Name, _, {type, _, {'BIT STRING', _}, [{'SizeConstraint', Size}], _, _}, _) ->
    list(Name, Size, "bit");
lines(Name, _, {type, _, 'OCTET STRING', [{'SizeConstraint', Size}], _, _}, _) ->
    list(Name, Size, "octet");
lines(Name, _, {type, _, 'IA5String', [{'SizeConstraint', Size}], _, _}, _) ->
    list(Name, Size, "character");
lines(Name, _, {type, _, Definition, Constraint, _, _}, _) ->
    stop("~s has a form that isn't expected: ~0p with the constraints ~0p", [Name, Definition, Constraint]).

%% with an extension mark, behind which nothing stands, or without one
marked({Root, []}) when is_list(Root) -> {extensible, Root};
marked(Root) when is_list(Root) -> {closed, Root};
marked(Other) -> stop("something stands behind an extension mark: ~0p", [Other]).

head(Kind, Name, Mark, Root) ->
    io_lib:format("~s ~s ~s ~w~n", [Kind, Name, Mark, length(Root)]).

list(Name, {{Least, Most}, []}, Item) -> list(Name, extensible, Least, Most, Item);
list(Name, {Least, Most}, Item) when is_integer(Least) -> list(Name, closed, Least, Most, Item).

list(Name, Mark, Least, Most, Item) when is_integer(Most) ->
    io_lib:format("list ~s ~s ~w ~w ~s~n", [Name, Mark, Least, Most, Item]).

%% a component or alternative: its name, its type's name, its presence, and the lines of a type inside it
part(Parent, {'ComponentType', _, Name, Checked, Property, _, _}, Written, Types) ->
    [Parsed] = [Type || {'ComponentType', _, Same, Type, _, _, _} <- Written, Same =:= Name],
    {Type, Inside} = refer(Parent ++ "." ++ atom_to_list(Name), Parsed, Checked, Types),
    {Name, Type, presence(Property), Inside}.

presence(mandatory) -> mandatory;
presence('OPTIONAL') -> optional;
presence(Other) -> stop("a component is neither mandatory nor OPTIONAL: ~0p", [Other]).

%% the name of the type referred to; a type without a name gets the one given, and lines of its own
refer(_, {type, _, {'Externaltypereference', _, _, Type}, [], _, _}, Checked, Types) ->
    stands_for(Type, Checked, Types),
    {Type, []};
refer(Name, Parsed, Checked, Types) ->
    {Name, lines(Name, Parsed, Checked, Types)}.

%% the database has either the same name or, in its place, what the name stands for
stands_for(Type, {type, _, {'Externaltypereference', _, _, Type}, [], _, _}, _) -> ok;
stands_for(Type, {type, _, Definition, Constraint, _, _}, Types) ->
    {type, _, Definition, Constraint, _, _} = maps:get(Type, Types),
    ok.
