#!/bin/bash
# Two servers on this machine, driven with curl: users, files, a share, its acceptance, the guest's reads, further
# permissions, revocation, kills and restarts, a full journal, a disk that fails, and what is refused at the start.
#
#   examples/two_servers.sh PROGRAM        one line a step; status 1 where one was wrong
#   examples/two_servers.sh PROGRAM -q     the wrong steps and the count alone
#
# It listens at ports that the system gives, keeps all files in a folder of its own, and ends its servers alone.
[ -n "$1" ] && program=$(realpath -e "$1") || { echo "usage: examples/two_servers.sh PROGRAM [-q]" >&2; exit 2; }
quiet=$2
run=("$program")
# the same on a disk that takes files of at most 8,192 bytes
run_limited=(bash -c 'trap "" XFSZ; ulimit -f 8; exec "$0" "$@"' "$program")
command -v curl >/dev/null || { echo "two_servers: skipped, there is no curl"; exit 0; }
folder=$(mktemp -d) || exit 2
cd "$folder" || exit 2
started=()
failed=0 passed=0
exec 3>&2 2>"$folder/shell.err" # here the shell tells which of its jobs were killed
end_all() {
    local pid
    for pid in "${started[@]}"; do kill -9 "$pid" 2>/dev/null; done
    wait 2>/dev/null
    rm -rf "$folder"
}
trap end_all EXIT

# note OUTCOME NAME WANTED GIVEN
note() {
    if [ "$1" = 0 ]; then
        passed=$((passed + 1))
        [ -n "$quiet" ] || printf 'ok    %-42s %s\n' "$2" "${4//$'\n'/ | }"
    else
        failed=$((failed + 1))
        printf 'WRONG %-42s\n      wanted %s\n      came   %s\n' "$2" "$3" "$4"
    fi
}
# head_line TEXT: what the next steps are about
head_line() { [ -n "$quiet" ] || printf -- '--- %s\n' "$1"; }
# is NAME WANTED GIVEN: a step
is() { [ "$2" = "$3" ]; note $? "$@"; }
# has NAME PATTERN GIVEN: a step whose answer has drawn digits
has() { [[ "$3" =~ $2 ]]; note $? "$@"; }
# soon NAME PATTERN COMMAND..: a step that may take a moment
soon() {
    local name=$1 wanted=$2 given=; shift 2
    for _ in {1..100}; do given=$("$@"); [[ "$given" =~ $wanted ]] && break; sleep 0.1; done
    has "$name" "$wanted" "$given"
}
# stop TEXT: ends the test where a server does not begin
stop() { printf 'two_servers: %s\n' "$1" >&3; exit 1; }

# begin NAME WORDS..: runs a server, with its standard error in NAME.err; sets pid, and address where it listens
begin() {
    local name=$1; shift
    : >"$name.err"
    "${run[@]}" serve "$@" >"$name.out" 2>"$name.err" &
    pid=$!; started+=("$pid"); address=
    for _ in {1..400}; do
        address=$(sed -n 's/^ocmd: listening on //p' "$name.err")
        [ -n "$address" ] && return
        kill -0 "$pid" || break
        sleep 0.05
    done
    stop "$name did not begin: $(cat "$name.err")"
}
# end SIGNAL PID: ends a server, and gives its status
end() { kill "-$1" "$2"; wait "$2"; }
# ended PID: gives the status of a server that ends by itself, within ten seconds
ended() {
    for _ in {1..100}; do kill -0 "$1" || break; sleep 0.1; done
    kill -9 "$1"; wait "$1"
}
# ends NAME WORDS..: runs a server that is refused; gives its status and what it told
ends() {
    local name=$1; shift
    timeout 20 "$program" serve "$@" >"$name.out" 2>"$name.err"; echo "$?"
    grep -hv '^ocmd: listening on ' "$name.out" "$name.err"
}

# ask WORDS..: a request; gives the body and the status
ask() { curl -s --max-time 20 -w '\n%{http_code}' "$@" | sed '1{/^$/d}'; }
# said WORDS..: the status alone
said() { curl -s --max-time 20 -o /dev/null -w '%{http_code}' "$@"; }
# tell SERVER KEY BODY: a command in a user's name
tell() { ask -u "$2:" -H 'Content-Type: application/json' --data-binary "$3" "http://$1/local"; }
# put KEY ADDRESS BODY: writes a file; gives the status and, where it was refused, why
put() { ask -u "$1:" -X PUT --data-binary "$3" "$2"; }
# field NAME: the text that a field of the JSON on standard input has
field() { sed -n "s/.*\"$1\":\"\([^\"]*\)\".*/\1/p"; }
# user SERVER ADMIN NAME: makes a user; gives the key
user() { tell "$1" "$2" "{\"command\":\"user\",\"name\":\"$3\"}" | field key; }
# journal HOST: a journal of that host without records, whose areas have 1,792 bytes; a server keeps their size
journal() {
    printf "\x01OCMJ002\x$(printf %02x ${#1})%s\0\0\0\0\0\0\x07\0\x01" "$1"
    head -c $((494 - ${#1})) /dev/zero
    printf '\x02\0'
}

head_line 'two addresses that the system gives'
begin probe_a --host probe.example --disk probe_a --admin k --listen 127.0.0.1:0; probe=$pid a=$address
begin probe_b --host probe.example --disk probe_b --admin k --listen 127.0.0.1:0; b=$address
has 'the first listens' '^127\.0\.0\.1:[1-9][0-9]+$' "$a"
end TERM "$probe"; is 'a server ends by SIGTERM' 143 $?
end TERM "$pid"
serve_a() { begin a --host "$a" --disk a.journal --admin admin-a --listen "$a" "$@"; a_pid=$pid; }
serve_b() { begin b --host "$b" --disk b.journal --admin admin-b --listen "$b"; }
serve_a; serve_b; b_pid=$pid
dav=http://$a/dav

head -c 1048576 /dev/zero >zeros

head_line 'discovery'
document='{"apiVersion":"1.1.0","enabled":true,"endPoint":"http://'$a'/ocm","resourceTypes":[{"name":"file","protocols":{"webdav":"/dav/"},"shareTypes":["user"]}]}'
for route in /.well-known/ocm /ocm-provider /ocm-provider/; do is "GET $route" "$document"$'\n200' "$(ask "http://$a$route")"; done
is 'another route' $'{"message":"not found"}\n404' "$(ask "http://$a/other")"

head_line 'users'
is 'a user by a wrong key' $'{"message":"unauthorized"}\n401' "$(tell "$a" wrong '{"command":"user","name":"alice"}')"
alice=$(user "$a" admin-a alice); has 'alice' '^[0-9a-f]{32}$' "$alice"
bob=$(user "$b" admin-b bob); has 'bob' '^[0-9a-f]{32}$' "$bob"
is 'alice again' $'{"message":"user exists"}\n409' "$(tell "$a" admin-a '{"command":"user","name":"alice"}')"
is 'no JSON' $'{"message":"not json"}\n400' "$(tell "$a" "$alice" '{')"
is 'no command' $'{"message":"bad request","validationErrors":[{"message":"missing","name":"command"}]}\n400' "$(tell "$a" "$alice" '{}')"

head_line 'files'
is 'MKCOL' 201 "$(said -u "$alice:" -X MKCOL "$dav/docs")"
is 'MKCOL again' $'{"message":"not allowed"}\n405' "$(ask -u "$alice:" -X MKCOL "$dav/docs")"
is 'PUT' 201 "$(put "$alice" "$dav/docs/x" hi)"
is 'PUT again' 204 "$(put "$alice" "$dav/docs/x" hello)"
is 'PUT without a parent' $'{"message":"parent missing"}\n409' "$(put "$alice" "$dav/n/x" hi)"
is 'GET' $'hello\n200' "$(ask -u "$alice:" "$dav/docs/x")"
is 'GET with Bearer' $'hello\n200' "$(ask -H "Authorization: Bearer $alice" "$dav/docs/x")"
is 'HEAD' '200 5' "$(curl -s -I -u "$alice:" -o /dev/null -w '%{http_code} %header{content-length}' "$dav/docs/x")"
is 'GET of a collection' $'{"message":"not allowed"}\n405' "$(ask -u "$alice:" "$dav/docs")"
is 'GET of nothing' $'{"message":"not found"}\n404' "$(ask -u "$alice:" "$dav/g")"
is 'GET without credentials' '401 Basic realm="ocm"' "$(curl -s -o /dev/null -w '%{http_code} %header{www-authenticate}' "$dav/docs/x")"
is 'a range' $'ell\n206' "$(ask -u "$alice:" -H 'Range: bytes=1-3' "$dav/docs/x")"
is 'a range behind the end' '416 bytes */5' "$(curl -s -u "$alice:" -H 'Range: bytes=5-' -o /dev/null -w '%{http_code} %header{content-range}' "$dav/docs/x")"
is 'COPY' 201 "$(said -u "$alice:" -X COPY -H "Destination: http://$a/dav/y" "$dav/docs/x")"
is 'COPY that may not overwrite' $'{"message":"occupied"}\n412' "$(ask -u "$alice:" -X COPY -H 'Overwrite: F' -H 'Destination: /dav/y' "$dav/docs/x")"
is 'COPY to another server' $'{"message":"other server"}\n502' "$(ask -u "$alice:" -X COPY -H 'Destination: http://b.example/dav/y' "$dav/docs/x")"
is 'MOVE' 201 "$(said -u "$alice:" -X MOVE -H 'Destination: /dav/z' "$dav/y")"
is 'DELETE' 204 "$(said -u "$alice:" -X DELETE "$dav/z")"
is 'DELETE of nothing' 404 "$(said -u "$alice:" -X DELETE "$dav/z")"
is 'OPTIONS is not served' '405 GET, HEAD, PUT, DELETE, MKCOL, PROPFIND, COPY, MOVE' "$(curl -s -u "$alice:" -X OPTIONS -o /dev/null -w '%{http_code} %header{allow}' "$dav/docs")"
is 'PROPFIND of depth 1' '<?xml version="1.0" encoding="utf-8"?>
<D:multistatus xmlns:D="DAV:"><D:response><D:href>/dav/docs/</D:href><D:propstat><D:prop><D:resourcetype><D:collection/></D:resourcetype></D:prop><D:status>HTTP/1.1 200 OK</D:status></D:propstat></D:response><D:response><D:href>/dav/docs/x</D:href><D:propstat><D:prop><D:resourcetype/><D:getcontentlength>5</D:getcontentlength></D:prop><D:status>HTTP/1.1 200 OK</D:status></D:propstat></D:response></D:multistatus>
207' "$(ask -u "$alice:" -X PROPFIND -H 'Depth: 1' "$dav/docs")"
is 'PROPFIND without a depth' '<?xml version="1.0" encoding="utf-8"?>
<D:error xmlns:D="DAV:"><D:propfind-finite-depth/></D:error>
403' "$(ask -u "$alice:" -X PROPFIND "$dav/docs")"
is 'a path with dots' $'{"message":"dots"}\n400' "$(ask -u "$alice:" --path-as-is "$dav/../x")"

head_line 'a share, told and accepted'
shared() { tell "$a" "$alice" '{"command":"share","path":"'"$1"'","with":"bob@'"$b"'","permissions":'"$2"'}'; }
bobs() { tell "$b" "$bob" '{"command":"list"}'; }
is 'share' $'{"number":1}\n201' "$(shared /docs '["read"]')"
soon 'bob has the offer' '^\{"received":\[\{"name":"docs","number":1,"owner":"alice@'"$a"'","permissions":\["read"\],"phase":"pending","providerId":"1","sharedSecret":"[0-9a-f]{32}"\}\],"requests":\[\],"shares":\[\]\}'$'\n''200$' bobs
secret=$(bobs | field sharedSecret)
is 'bob accepts' 204 "$(tell "$b" "$bob" '{"command":"accept","number":1}')"
soon 'his server has the answer' '"phase":"confirmed"' bobs
is 'accepted twice' $'{"message":"wrong phase"}\n409' "$(tell "$b" "$bob" '{"command":"accept","number":1}')"
is 'the guest reads' $'hello\n200' "$(ask -u "$secret:" "$dav/x")"
is 'the guest may not write' $'{"message":"not permitted"}\n403' "$(put "$secret" "$dav/x" no)"
is 'a guessed secret' $'{"message":"unauthorized"}\n401' "$(ask -u '00000000000000000000000000000000:' "$dav/x")"
is 'a forged notification' $'{"message":"unknown share"}\n403' "$(ask --data-binary '{"notification":{"sharedSecret":"zz"},"notificationType":"SHARE_DECLINED","providerId":"1"}' "http://$a/ocm/notifications")"
is 'an offer for nobody' $'{"message":"bad request","validationErrors":[{"message":"unknown user","name":"shareWith"}]}\n400' "$(ask --data-binary '{"name":"docs","owner":"eve@c.example","protocol":{"name":"multi","webdav":{"permissions":["read"],"sharedSecret":"s","uri":"/dav/"}},"providerId":"1","resourceType":"file","shareType":"user","shareWith":"eve@'"$b"'"}' "http://$b/ocm/shares")"

head_line 'a restriction'
is 'a share with all rights' $'{"number":2}\n201' "$(shared /docs '["read","write","share"]')"
soon 'bob has it' '"number":2,' bobs
second=$(bobs | sed 's/.*"number":2,//' | field sharedSecret)
is 'the guest writes' 204 "$(put "$second" "$dav/x" hello)"
is 'limit' 204 "$(tell "$a" "$alice" '{"command":"limit","number":2,"permissions":["read"]}')"
is 'the guest writes no more' 403 "$(said -u "$second:" -X PUT --data-binary no "$dav/x")"
soon 'bob is told' '"number":2,[^}]*"permissions":\["read"\],"phase":"pending"' bobs

head_line 'kill -9, and restarts'
end KILL "$a_pid"
is 'nobody answers' 000 "$(said -u "$secret:" "$dav/x")"
serve_a
is 'the guest reads again' $'hello\n200' "$(ask -u "$secret:" "$dav/x")"
lost=0
for n in 1 2 3 4 5; do
    # each PUT that was answered is there after the kill that follows it at once
    [ "$(put "$alice" "$dav/docs/n$n" "$n")" = 201 ] || lost=$((lost + 1))
    end KILL "$a_pid"; serve_a
    [ "$(ask -u "$alice:" "$dav/docs/n$n")" = "$n"$'\n200' ] || lost=$((lost + 1))
done
is 'five kills, each right behind a PUT' 0 "$lost"
state='{"number":1,"path":"/docs","permissions":["read"],"shareWith":"bob@'$b'","state":"live"},{"number":2,"path":"/docs","permissions":["read"],"shareWith":"bob@'$b'","state":"live"}'
is 'alice lists' '{"received":[],"requests":[],"shares":['"$state"$']}\n200' "$(tell "$a" "$alice" '{"command":"list"}')"

head_line 'a copy, restored'
end TERM "$a_pid"
cp a.journal copy.journal
serve_a
is 'unshare' 204 "$(tell "$a" "$alice" '{"command":"unshare","number":1}')"
is 'the guest reads no more' $'{"message":"unauthorized"}\n401' "$(ask -u "$secret:" "$dav/x")"
is 'nor learns what is there' $'{"message":"unauthorized"}\n401' "$(ask -u "$secret:" "$dav/nothing")"
is 'the other share stands' $'hello\n200' "$(ask -u "$second:" "$dav/x")"
soon 'bob is told' '"number":1,[^}]*"phase":"removed"' bobs
end KILL "$a_pid"; serve_a
is 'nor behind a kill' 401 "$(said -u "$secret:" "$dav/x")"
begin copy --host "$a" --disk copy.journal --admin k --listen 127.0.0.1:0
is 'the copy is of its moment' $'hello\n200' "$(ask -u "$secret:" "http://$address/dav/x")"
end TERM "$pid"

head_line 'an end, and a server that is away'
end_at() { tell "$a" "$alice" '{"command":"expire","number":2,"until":'"$1"'}'; }
is 'an end far away' 204 "$(end_at 4000000000)"
is 'until its end it reads' 200 "$(said -u "$second:" "$dav/x")"
is 'an end in a second' 204 "$(end_at "$(($(date +%s) + 1))")"
end KILL "$b_pid"
is 'a share for bob' $'{"number":3}\n201' "$(shared /docs/x '["read"]')"
serve_b; b_pid=$pid
told() { said "http://$a/.well-known/ocm" >/dev/null; bobs; }
soon 'he is told when his server is back' '"number":3,[^}]*"phase":"pending"' told
soon 'and the end has come' '^401$' said -u "$second:" "$dav/x"

head_line 'an audit'
end TERM "$a_pid"
is 'its journal' 0 "$("$program" audit <a.journal >audit.out; echo $?)"
has 'and what it says' "^host $a"$'\n''513 .*'$'\n''end [0-9]+$' "$(cat audit.out)"
serve_a
is 'all is there' $'hello\n200' "$(ask -u "$alice:" "$dav/docs/x")"

head_line 'a journal that is full'
journal small.example >small.journal
printf 'k\n' > good.key
begin file --host file.example --disk file.journal --admin-file good.key --listen 127.0.0.1:0
has 'a user by the key in a file' '^[0-9a-f]{32}$' "$(user "$address" k alice)"
begin small --host small.example --disk small.journal --admin k --listen 127.0.0.1:0
key=$(user "$address" k u) small=http://$address/dav
is 'a file' 201 "$(put "$key" "$small/f" "$(head -c 1500 zeros | tr '\0' x)")"
is 'one that does not fit' $'{"message":"journal full"}\n507' "$(put "$key" "$small/g" "$(head -c 200 zeros | tr '\0' x)")"
is 'reads go on' 200 "$(said -u "$key:" "$small/f")"
is 'a DELETE that gives room back' 204 "$(said -u "$key:" -X DELETE "$small/f")"
is 'and now it fits' 201 "$(put "$key" "$small/g" "$(head -c 200 zeros | tr '\0' x)")"
end KILL "$pid"
begin small --host small.example --disk small.journal --admin k --listen 127.0.0.1:0
is 'after a kill too' '200 404' "$(said -u "$key:" "http://$address/dav/g") $(said -u "$key:" "http://$address/dav/f")"
end TERM "$pid"

head_line 'a disk that fails'
run=("${run_limited[@]}")
begin limit --host limit.example --disk limit.journal --admin k --listen 127.0.0.1:0
run=("$program")
key=$(user "$address" k u) limited=http://$address/dav
is 'a file' 201 "$(put "$key" "$limited/f" hello)"
is 'one that the disk has no room for' $'{"message":"disk fault 1"}\n503' "$(put "$key" "$limited/g" "$(head -c 9000 zeros | tr '\0' x)")"
is 'no change is made any more' $'{"message":"stopped 1"}\n503' "$(put "$key" "$limited/f" no)"
is 'the administrator is told' 'ocmd: the disk failed, and no change is made until the server is started again' "$(sed 1d limit.err)"
end TERM "$pid"
begin limit --host limit.example --disk limit.journal --admin k --listen 127.0.0.1:0
is 'what was answered is there' $'hello\n200' "$(ask -u "$key:" "http://$address/dav/f")"
is 'and changes are made again' 204 "$(put "$key" "http://$address/dav/f" yes)"
end TERM "$pid"

head_line 'what is refused at the start'
is 'a second server on the same file' $'12\nocmd: another server has the disk\'s file a.journal' "$(ends second --host "$a" --disk a.journal --admin k --listen 127.0.0.1:0)"
is 'an address that is taken' $'12\nocmd: the address '"$a"' cannot be listened at: it is in use' "$(ends taken --host "$a" --disk c.journal --admin k --listen "$a")"
is 'which makes no file' '' "$(ls c.journal 2>/dev/null)"
is 'a folder that is not there' $'12\nocmd: the disk\'s file no/c.journal cannot be opened: there is no such file or folder' "$(ends nowhere --host "$a" --disk no/c.journal --admin k --listen 127.0.0.1:0)"
is 'no file of the administrator' $'12\nocmd: the administrator\'s key file nothing cannot be read: there is no such file or folder' "$(ends noadmin --host "$a" --disk c.journal --admin-file nothing --listen 127.0.0.1:0)"
printf 'k:k\n' > bad.key
is 'a file without a key' $'12\nocmd: the administrator\'s key file bad.key holds no key: 1 to 255 bytes without a control character or \':\', and at most one line end' "$(ends badadmin --host "$a" --disk c.journal --admin-file bad.key --listen 127.0.0.1:0)"
is 'no key file' $'12\nocmd: the key file nothing cannot be read: there is no such file or folder' "$(ends nokey --host "$a" --disk c.journal --admin k --listen 127.0.0.1:0 --key-file nothing)"
printf hello >wrong.journal
is 'a file that is no journal' $'7\nocmd: the disk wrong.journal is not a journal at 0' "$(ends wrong --host "$a" --disk wrong.journal --admin k --listen 127.0.0.1:0)"
is 'which stays as it is' hello "$(cat wrong.journal)"
is 'the journal of another host' $'10\nocmd: the disk probe_a is the journal of another host, probe.example' "$(ends other --host other.example --disk probe_a --admin k --listen 127.0.0.1:0)"
usage=$("$program" serve 2>/dev/null)
# A line of standard error tells what is wrong, and gives an example.
usage+=$'\nocmd: serve '
has 'no words' '^usage: ocmd replay\|' "$usage"
is 'both options for the key' $'1\n'"$usage--admin-file: --admin is there as well, and only one of the two may be. Example: --admin-file /etc/ocmd/admin.key" "$(ends words --host a.example --disk j --admin k --admin-file f)"
is 'none of them' $'1\n'"$usage--admin-file: it is missing, and so is --admin. Example: --admin-file /etc/ocmd/admin.key" "$(ends words --host a.example --disk j)"
is 'no disk' $'1\n'"$usage--disk: it is missing. Example: --disk /var/lib/ocmd/journal" "$(ends words --host a.example --admin k)"
is 'no workers' $'1\n'"$usage--workers 0: it is not a number from 1 to 64. Example: --workers 16" "$(ends words --host a.example --disk j --admin k --workers 0)"
is '65 workers' $'1\n'"$usage--workers 65: it is not a number from 1 to 64. Example: --workers 16" "$(ends words --host a.example --disk j --admin k --workers 65)"
is 'a host that is none' $'1\n'"$usage--host a_b: a host is a name or an IPv4 address, and :PORT unless that is 80. Example: --host files.example" "$(ends words --host a_b --disk j --admin k)"

head_line 'a server without a standard error'
begin mute --host mute.example --disk mute.journal --admin k --listen 127.0.0.1:0
end TERM "$pid"
timeout 1 sh -c 'exec "$0" serve --host mute.example --disk mute.journal --admin k --listen 127.0.0.1:0 2>&-' "$program"
is 'writes no line into its journal' 'host mute.example' "$("$program" audit <mute.journal | head -1)"

head_line 'a server that ends'
begin last --host last.example --disk last.journal --admin k --listen 127.0.0.1:0 --workers 2 --connections 1
is 'its first connection' 200 "$(said "http://$address/.well-known/ocm")"
is 'and its second' 400 "$(said -u k: --data-binary '{}' "http://$address/local")"
ended "$pid"; is 'its status' 0 $?
has 'and what it tells' 'ocmd: ended after [0-9]+ calls$' "$(cat last.err)"

head_line 'peers that misbehave'
host=${a%:*} port=${a#*:}
fixed=$'HTTP/1.1 400 Bad Request\r\nContent-Length: 0\r\nConnection: close\r\n\r'
raw() { exec 7<>"/dev/tcp/$host/$port"; printf "$1" >&7; timeout 15 cat <&7; exec 7>&-; }
is 'no HTTP' "$fixed" "$(raw 'GARBAGE\r\n\r\n')"
is 'both lengths' "$fixed" "$(raw 'PUT /dav/x HTTP/1.1\r\nContent-Length: 1\r\nTransfer-Encoding: chunked\r\n\r\n0\r\n\r\n')"
is 'two requests in one piece' 2 "$(raw 'GET /other HTTP/1.1\r\n\r\nGET /other HTTP/1.1\r\nConnection: close\r\n\r\n' | grep -c 'HTTP/1.1 404')"
is 'a refused head without its body' "$fixed" "$(raw 'PUT /dav/x HTTP/1.1\r\nContent-Length: 9999999\r\n\r\n')"
exec 7<>"/dev/tcp/$host/$port"
printf 'PUT /dav/docs/asked HTTP/1.1\r\nAuthorization: Bearer %s\r\nContent-Length: 5\r\nExpect: 100-continue\r\n\r\n' "$alice" >&7
for line in interim empty; do IFS= read -r -t 15 "$line" <&7; done
printf 'hello' >&7; IFS= read -r -t 15 final <&7; exec 7>&-
is 'a body that waits to be asked for' $'HTTP/1.1 100 Continue\r+\r+HTTP/1.1 201 Created\r' "$interim+$empty+$final"
is 'PUT of 1 MiB in chunks' 201 "$(said -u "$alice:" -H 'Transfer-Encoding: chunked' -T - "$dav/docs/large" <zeros)"
is 'GET of 1 MiB' '200 same' "$(curl -s -u "$alice:" -o large -w '%{http_code}' "$dav/docs/large") $(cmp -s large zeros && echo same)"
is 'PUT of one byte more' 400 "$( (cat zeros; echo -n x) | said -u "$alice:" -X PUT --data-binary @- "$dav/docs/larger")"
for _ in {1..20}; do (exec 7<>"/dev/tcp/$host/$port"; printf 'GET /dav/docs/large HTTP/1.1\r\nAuthorization: Bearer '"$alice"'\r\n\r\n' >&7; exec 7>&-); done
is 'twenty that leave before the page came' $'hello\n200' "$(ask -u "$alice:" "$dav/docs/x")"
kill -0 "$a_pid"; is 'the server stands' 0 $?
kill -0 "$b_pid"; is 'so does the other' 0 $?

echo "two_servers: $passed steps as expected, $failed not"
[ "$failed" = 0 ]
