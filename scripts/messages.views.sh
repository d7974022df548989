# shellcheck shell=bash disable=SC2154
# Sourced by scripts/messages, with its `says` and `made`: what scripts/plan --routes and --json, scripts/survey and scripts/draw show, of accepted and
# refused meshes.
plan_usage="usage: scripts/plan FILE.table|FILE.book|-|BYTES.. [--routes | --json]"
draw_usage="usage: scripts/draw FILE.table|FILE.book|- [LINK [--near] | --collect ROOT] [--slide] [-o NAME.svg|NAME.png]"
says 2 scripts/plan --routes <<<"$plan_usage"
says 2 scripts/plan examples/triangle.table --paths <<<"$plan_usage"
says 2 scripts/plan examples/triangle.table --routes --json <<<"$plan_usage"
says 2 scripts/plan '' <<<"$plan_usage"
says 2 scripts/survey <<<"usage: scripts/survey FILE.table|FILE.book|-"
says 2 scripts/survey 01020000 <<<"usage: scripts/survey FILE.table|FILE.book|-"
says 1 scripts/survey "$made/no.book" <<<"$made/no.book: no such file"
says 2 scripts/draw examples/triangle.table --near <<<"$draw_usage"
says 2 scripts/draw examples/triangle.table --collect 0 --near <<<"$draw_usage"

refusal_20="refusal 20: some two nodes have no path between them
  place 3: the lowest node that node 0 does not reach
  look at: the mesh is apart: add links to that node's part"
refusal_21="refusal 21: the mesh falls apart without some link
  place 0: the lowest such link
  look at: give the two sides of that link a second connection"

# a path of four nodes: every link parts it; with comments at line ends, and as standard input
printf '%s\n' '# site 0 "Hall 7"' '# site 2 Sports ground 1 2' 'nodes 4' '0 1 # the yard' '' '1 2' '2 3' >"$made/path.table"
bridges="$made/path.table:4: link 0, between nodes 0 Hall 7 and 1, parts the mesh
$made/path.table:6: link 1, between nodes 1 and 2 Sports ground, parts the mesh
$made/path.table:7: link 2, between nodes 2 Sports ground and 3, parts the mesh"
says 1 scripts/plan "$made/path.table" <<<"refused 21 0
$refusal_21
$bridges"
says 1 scripts/plan --routes "$made/path.table" <<<"not every link is protected: the mesh falls apart without any one of the links 0, 1 and 2
$bridges
$refusal_21"
says 1 sh -c "scripts/plan - --routes <'$made/path.table'" <<<"not every link is protected: the mesh falls apart without any one of the links 0, 1 and 2
${bridges//"$made/path.table"/-}
$refusal_21"
says 0 scripts/survey "$made/path.table" <<<"survey 1 3
part 0 1 2 3
bridge 0 0 1
bridge 1 1 2
bridge 2 2 3
$bridges"
# a book has no lines, and the bytes of a book no name
says 1 scripts/plan 01 02 01 00 00 <<<"refused 21 0
$refusal_21
link 0, between nodes 0 and 1, parts the mesh"
says 0 scripts/survey examples/bridged.book <<'LINES'
survey 1 1
part 0 1 2 3 4 5
bridge 3 2 3
examples/bridged.book: link 3, between nodes 2 and 3, parts the mesh
LINES
says 0 scripts/survey examples/triangle.table <<'LINES'
survey 1 0
part 0 1 2
LINES
# a triangle, two nodes with one link, and a node without a link
printf '%s\n' 'nodes 6' '0 1' '0 2' '1 2' '3 5' >"$made/pieces.table"
pieces="$made/pieces.table:2: part 1 of 3: nodes 0, 1, 2
$made/pieces.table:5: part 2 of 3: nodes 3, 5; no path to node 0
$made/pieces.table:1: part 3 of 3: node 4; no path to node 0
$made/pieces.table:5: link 3, between nodes 3 and 5, parts its part of the mesh"
says 1 scripts/plan "$made/pieces.table" --routes <<<"not every link is protected: the mesh is in 3 parts, and falls further apart without link 3
$pieces
$refusal_20"
says 1 bash -o pipefail -c "scripts/draw '$made/pieces.table' | grep -E '^  label|red'" <<<"$refusal_20
$pieces
  label=\"pieces: 6 nodes, 4 links\\nnot every link is protected: the mesh is in 3 parts, and falls further apart without link 3 (red)\"
  3 [label=\"3\\npart 2\" fillcolor=\"#ffe8bf\" color=red penwidth=2]
  4 [label=\"4\\npart 3\" fillcolor=\"#d8ecd3\" color=red penwidth=2]
  5 [label=\"5\\npart 2\" fillcolor=\"#ffe8bf\" color=red penwidth=2]
  3 -> 5 [label=<<table border=\"0\" cellpadding=\"0\" bgcolor=\"white\"><tr><td>3</td></tr></table>> dir=none color=red fontcolor=red penwidth=4]"

# a book that cannot be read
refusal_9="refusal 9: a field is written that equals its absent value
  place 4: the byte of the record's bit map
  look at: leave the field out: each mesh has one book"
says 1 scripts/survey "$made/needless.book" <<<"read refused 9 4
$refusal_9"
says 1 scripts/plan "$made/needless.book" --routes <<<"not a mesh: refused 9 4
$refusal_9"
says 1 scripts/plan "$made/needless.book" --json <<<"{
  \"format\": 1,
  \"nodes\": [],
  \"links\": [],
  \"protected\": false,
  \"refusal\": {\"number\": 9, \"place\": 4, \"meaning\": \"a field is written that equals its absent value\"},
  \"parts\": [],
  \"bridges\": [],
  \"cuts\": []
}
$refusal_9"
says 1 scripts/draw "$made/needless.book" <<<"$refusal_9
refused 9 4"

# names with quotes, backslashes, blanks, a tab and letters beyond ASCII
printf '%s\n' '# site 0 "the "old" gate"' '# site 1 C:\yard 0 1.50' $'# site 2 Caf\303\251\tR&D' 'nodes 3' '0 1 400' '0 2 65535' '1 2 700' >"$made/a \"b\".table"
says 0 scripts/plan "$made/a \"b\".table" --routes <<<"every link is protected: 3 nodes, 3 links; the longest route has 2 links, the heaviest run 2 deliveries
cut 0 (the \"old\" gate - C:\\yard): 0 the \"old\" gate - 2 Café	R&D - 1 C:\\yard, 2 links, 66,235 m, 2 deliveries
cut 1 (the \"old\" gate - Café	R&D): 2 Café	R&D - 1 C:\\yard - 0 the \"old\" gate, 2 links, 1,100 m, 2 deliveries
cut 2 (C:\\yard-Café	R&D): 1 C:\\yard - 0 the \"old\" gate - 2 Café	R&D, 2 links, 65,935 m, 2 deliveries"
says 0 sh -c "scripts/plan '$made/a \"b\".table' --json | grep '\"node\":'" <<'LINES'
    {"node": 0, "name": "the \"old\" gate", "place": null},
    {"node": 1, "name": "C:\\yard", "place": [0, 1.5]},
    {"node": 2, "name": "Café\u0009R&D", "place": null}
LINES
says 0 sh -c "scripts/draw '$made/a \"b\".table' | grep -E 'digraph|^  label|^  [0-9] .label'" <<'LINES'
digraph "a \"b\"" {
  label="a \"b\": 3 nodes, 3 links (grey, primary direction)"
  0 [label="0\nthe \"old\"\ngate"]
  1 [label="1\nC:\\yard" pos="0,1.5!"]
  2 [label="2\nCafé R&amp;D"]
LINES
# a table in Latin-1, places with many digits, a place that is no number
printf '%s\n' $'# site 0 Caf\351 13.404954 52.520008' "# site 1 1$(printf '%020d' 0) 2" 'nodes 3' '0 1' '0 2' '1 2' >"$made/latin.table"
says 0 sh -c "scripts/plan '$made/latin.table' --json | grep '\"node\":'" <<'LINES'
    {"node": 0, "name": "Café", "place": [13.404954, 52.520008]},
    {"node": 1, "name": "100000000000000000000 2", "place": null},
    {"node": 2, "name": null, "place": null}
LINES
# files whose names begin with a dash, have an equals sign, a backslash
for name in -y p=q 'c\nd'; do
    cp "$made/path.table" "$made/$name.table"
    says 1 bash -c 'cd "$1" && "$2/scripts/plan" "$3" --routes' bash "$made" "$root" "$name.table" \
        <<<"not every link is protected: the mesh falls apart without any one of the links 0, 1 and 2
${bridges//"$made/path.table"/"$name.table"}
$refusal_21"
    cp examples/triangle.table "$made/$name.table"
    says 0 bash -c 'cd "$1" && "$2/scripts/film" "$3" cut 0 | grep "^<title>" && "$2/scripts/draw" "$3" | head -n 1' bash "$made" "$root" "$name.table" \
        <<<"<title>$name: recovery after a cut of link 0</title>
digraph \"${name//\\/\\\\}\" {"
done
says 0 env CDPATH=. scripts/plan examples/triangle.table <<<"$(cat examples/triangle.listing)"
# what takes long says what it does, and what is quick does not
says 0 bash -c '. scripts/common.sh; PROGRESS_AFTER=0.1; progress "waiting" sleep 1; PROGRESS_AFTER=9 progress "waiting again" true' <<<"waiting .."
