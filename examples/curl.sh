#!/usr/bin/env bash
# A call of each route, to a server that begins with an empty window and listens at the port that is given, 8017 without
# one:
#
#   ./graphjet serve & sleep 1; examples/curl.sh; kill %1
#
# Each line is the body of a reply; examples/curl.out has them all.
at=http://127.0.0.1:${1:-8017}

stop() {
    echo "curl.sh: $*" >&2
    exit 1
}

# call PATH [CURL'S OPTIONS]: a query is a GET, and with -d a POST.
call() {
    curl --silent --show-error --noproxy '*' --max-time 10 "$at$1" "${@:2}" || exit 1
    echo
}

command -v curl >/dev/null || stop "there is no curl"
begun=$(call /stats 2>/dev/null) || stop "no server at $at"
[[ $begun == '{"length":0,'* ]] || stop "the server at $at has a history, and this would add to it"

# Three interactions; then one by producer 5 under its number 1, which is posted again as after a lost reply; and its next.
call /interactions -d '{"items":[{"user":1,"post":10,"kind":"favorite"},{"user":1,"post":20,"kind":"click"},{"user":2,"post":20,"kind":"click"}]}'
call /interactions -d '{"items":[{"user":2,"post":30,"kind":"retweet","at":1700000000}],"producer":5,"number":1}'
call /interactions -d '{"items":[{"user":2,"post":30,"kind":"retweet","at":1700000000}],"producer":5,"number":1}'
call /interactions -d '{"items":[{"user":3,"post":30,"kind":"reply","at":1700000060}],"producer":5,"number":2}'

# Posts for user 2, over all five interactions: by random walks, without those that the user has; and for both users.
call /walk -d '{"seeds":[2],"steps":1000,"since":5}'
call /walk -d '{"seeds":[1],"steps":1000,"hide":true}'
call /subgraph -d '{"seeds":[2,1],"iterations":1}'
call /count -d '{"seeds":[{"user":1,"weight":3},{"user":2,"weight":5}]}'
call /similar -d '{"post":10,"steps":2,"seed":5}'

# What is known of a user and of a post, the window's numbers, and its interactions from place 3 on.
call /users/1
call /posts/20
call /stats
call /log/3

# Two refusals: the history has no six interactions yet, and a walk needs its steps.
call /walk -d '{"seeds":[2],"steps":1000,"since":6}'
call /walk -d '{"seeds":[2]}'
