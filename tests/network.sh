#!/bin/sh
# Runs hosts in network namespaces of its own, with Ethernet frames between them: in C and in Python, crosswise, on a cable, at a bridge, at a hub that spoils
# frames, and where an interface goes down and comes back. No frame leaves the machine. It needs the rights to make namespaces, and leaves all out where it has
# none. What it leaves out because a tool is missing it says. Its last line is 'N passed, M failed', and it ends with 1 where one failed.
set -u
CDPATH=
cd "$(dirname "$0")/.."
. tests/lib.sh
front=xns$$
running=
begun=0
seconds=60

# Ends the programs that this script started and that still run.
end_all() {
    for one in $running; do kill "$one" 2> /dev/null; done
    for one in $running; do wait "$one" 2> /dev/null; done
    running=
}

remove_all() {
    end_all
    for one in $(ip netns list 2> /dev/null | cut -d' ' -f1); do
        case $one in "$front"-*) ip netns del "$one" ;; esac
    done
}

trap 'remove_all; rm -rf "$work"' EXIT
trap 'exit 1' HUP INT TERM

for tool in ip timeout python3; do
    if ! has $tool; then left_out $tool 'hosts on Ethernet'; finish; fi
done
if ! ip netns add "$front-0" 2> "$work/err" || ! ip -n "$front-0" link add name a type veth peer name b 2> "$work/err"; then
    left_out 'the right to make network namespaces' 'hosts on Ethernet'
    finish
fi
ip netns del "$front-0"
find_compiler
if [ -z "$compiler" ]; then left_out 'a C compiler' 'hosts on Ethernet'; finish; fi

# ---- what is run

archive=crates/xns_c/out/libxns_c.a
heap=$(dirname "$(rt doc)")/c/liblibc_c.a
if [ ! -f $archive ] && ! (cd crates/xns_c && rt lib) > "$work/err" 2>&1; then fail "$archive is not built"; finish; fi
if [ ! -f "$heap" ]; then heap=$(dirname "$(readlink -f "$(command -v rt)")")/../c/liblibc_c.a; fi
flags='-Wall -Wextra -Wpedantic -Wconversion -Werror -O2 -std=c99 -Iinclude'
for example in server client ping epoll; do
    expect "$example is built" "$compiler" $flags examples/c/$example.c $archive "$heap" -o "$work/$example"
done
expect 'the shared library' "$compiler" -shared -Wl,--whole-archive $archive -Wl,--no-whole-archive "$heap" -o "$work/libxns.so"
if [ $failed -ne 0 ]; then finish; fi
build_program xns -- sim
PATH=$PWD/python:$(dirname "$program"):$PATH
PYTHONPATH=$PWD/python
XNS_LIBRARY=$work/libxns.so
PYTHONDONTWRITEBYTECODE=1
export PATH PYTHONPATH XNS_LIBRARY PYTHONDONTWRITEBYTECODE

station() {
    printf '02:00:aa:00:00:%02x' "$1"
}

# Runs words at the station of this number, for so many seconds at most.
at() {
    at_station=$front-$1
    shift
    timeout $seconds ip netns exec "$at_station" "$@"
}

# Runs words at the station of this number beside what follows, for longer. The program is $started, and its output is in the file $said.
begin() {
    begin_station=$front-$1
    begun=$((begun + 1))
    said=$work/said.$begun
    shift
    ip netns exec "$begin_station" timeout $((seconds + 40)) "$@" > "$said" 2>&1 &
    started=$!
    running="$running $started"
}

# A namespace that sends nothing by itself.
add_station() {
    ip netns add "$front-$1"
    ip netns exec "$front-$1" sysctl -qw net.ipv6.conf.all.disable_ipv6=1 net.ipv6.conf.default.disable_ipv6=1 2> /dev/null
}

# A cable between two stations.
plug() {
    ip link add name eth0 netns "$front-1" address "$(station 1)" type veth peer name eth0 netns "$front-2" address "$(station 2)"
    for number in 1 2; do ip -n "$front-$number" link set eth0 up; done
}

# Two stations and a cable.
cable() {
    remove_all
    add_station 1
    add_station 2
    plug
}

# Four stations, whose cables end in another namespace at p1 to p4.
star() {
    remove_all
    add_station hub
    for number in 1 2 3 4; do
        add_station $number
        ip link add name eth0 netns "$front-$number" address "$(station $number)" type veth peer name p$number netns "$front-hub"
        ip -n "$front-$number" link set eth0 up
        ip -n "$front-hub" link set p$number up
    done
}

# Waits until a host of the network, as the station of this number sees it, answers Echo, for ten seconds at most.
answers() {
    tries=0
    until at "$1" "$work/ping" -i eth0 "$(station "$2")" 1 > /dev/null 2>&1; do
        tries=$((tries + 1))
        [ $tries -lt 10 ] || return 1
    done
}

# Waits until so many programs read frames of this type (0003: all) at a station, for ten seconds at most.
listened() {
    tries=0
    until [ "$(at "$1" awk -v type="$2" '$4 == type && $6 == 1' /proc/net/packet | wc -l)" -eq "$3" ]; do
        tries=$((tries + 1))
        [ $tries -lt 100 ] || return 1
        sleep 0.1
    done
}

# What the words print must be these lines.
prints() {
    name=$1
    printf '%s\n' "$2" > "$work/wanted"
    shift 2
    if "$@" > "$work/out" 2> "$work/err" && [ ! -s "$work/err" ] && cmp -s "$work/wanted" "$work/out"; then pass; else fail "$name"; cat "$work/out"; fi
}

# ---- two stations and a cable: each server, with each client

longest='return 131060 bytes, the same'
echo 'Tally: PROGRAM 7 VERSION 1 = BEGIN Add: PROCEDURE [amount: CARDINAL] RETURNS [total: LONG CARDINAL] = 1; END.' > "$work/tally.courier"
for language in C Python; do
    cable
    begin 2 python3 tests/network.py capture eth0 "$work/$language.pcap"
    capturing=$started
    begin 2 xns-net watch -i eth0
    watching=$started
    watched=$said
    expect 'all frames are read' listened 2 0003 2
    if [ $language = C ]; then begin 1 "$work/server" -i eth0; else begin 1 xns-net serve -i eth0; fi
    expect "a server in $language answers Echo" answers 2 1
    prints "calls of C to a server in $language" "return 0 1
return 0 3
return 1 2
$longest" at 2 "$work/client" -i eth0 "$(station 1)" 1 2 65535 x131060
    prints "a call of Python to a server in $language" 'return 0001 0007' at 2 xns-net call 0200aa000001 7 1 1 0005 -i eth0
    prints "a call by name to a server in $language" 'return Add [total: 65550]' at 2 xns-net call 0200aa000001 Tally 1 Add 7 --programs "$work/tally.courier" -i eth0
    prints "a call that is rejected by a server in $language" 'reject 2 -' sh -c "timeout 60 ip netns exec $front-2 xns-net call 0200aa000001 7 1 3 -i eth0; [ \$? -eq 3 ]"
    expect 'the longest Echo' at 2 "$work/ping" -i eth0 "$(station 1)" 2 544
    expect 'comes back' grep -qx '2 sent, 2 came' "$work/out"
    expect 'Echo to all' at 2 "$work/ping" -i eth0 all 2
    expect 'is answered' grep -qx '2 sent, 2 came' "$work/out"
    for host in 1.0200aa000001 all; do
        expect "xns-net ping $host" at 2 xns-net ping $host -i eth0 -c 2 --interval 0.1 --wait 0.3
        expect 'has its replies' grep -q '^2 sent, 2 answered.* 0% lost$' "$work/out"
    done
    tries=0
    until [ "$(grep -c ' call ' "$watched") $(grep -c ' return \| reject ' "$watched")" = '7 7' ] || [ $tries -eq 50 ]; do
        tries=$((tries + 1))
        sleep 0.1
    done
    kill -INT "$watching"
    kill "$capturing"
    wait "$watching" "$capturing" 2> /dev/null
    expect 'the capture' xns calls "$work/$language.pcap"
    cp "$work/out" "$work/calls"
    expect 'has each call' test "$(grep -c ' call ' "$work/calls")" -eq 7
    expect 'and each answer' test "$(grep -c ' return ' "$work/calls") $(grep -c ' reject ' "$work/calls")" = '6 1'
    for one in "$work/calls" "$watched"; do grep ' call \| return \| reject ' "$one" | cut -d' ' -f3- | sed 's/ of [0-9]* / /' > "$one.lines"; done
    mv "$work/calls.lines" "$work/wanted"
    mv "$watched.lines" "$work/out"
    if cmp "$work/wanted" "$work/out" > "$work/err" 2>&1; then pass; else fail "xns-net watch beside a server in $language"; fi
    if has tshark; then
        expect 'tshark and xns dump agree' python3 tests/network.py agree "$work/$language.pcap"
        sed "s/^/$language: /" "$work/out"
    else left_out tshark 'whether it agrees with xns dump'; fi
done

# ---- statuses, and what is told

expect 'no such interface' sh -c "timeout 60 ip netns exec $front-2 xns-net ping all -i eth9 2>&1; [ \$? -eq 1 ]"
expect 'is told' grep -qx 'xns-net: eth9: No such device' "$work/out"
if has setpriv; then
    nobody='setpriv --reuid=65534 --regid=65534 --clear-groups --inh-caps=-all --bounding-set=-all'
    mkdir "$work/given"
    cp -r python "$work/libxns.so" "$work/given/"
    chmod -R a+rX "$work"
    expect 'no right' sh -c "timeout 60 ip netns exec $front-2 $nobody env XNS_LIBRARY=$work/given/libxns.so $work/given/python/xns-net ping all -i eth0 2>&1; [ \$? -eq 1 ]"
    expect 'is told with its name' grep -q 'CAP_NET_RAW' "$work/out"
else left_out setpriv 'what is told where there is no right'; fi
end_all
expect 'a call to a server that is gone' sh -c "timeout 60 ip netns exec $front-2 '$work/client' -i eth0 $(station 1) 1 2>&1; [ \$? -eq 1 ]"
expect 'is given up' grep -qx 'the peer does not answer' "$work/out"
begin 1 python3 tests/network.py noise eth0
begin 2 python3 tests/network.py capture eth0 "$work/noise.pcap"
capturing=$started
begin 2 xns-net watch -i eth0 --hex
expect 'a watch and a capture read frames that never cease' listened 2 0003 2
sleep 0.5
kill -INT "$started"
kill "$capturing"
expect 'and end by a signal' listened 2 0003 0
begin 2 "$work/ping" -i eth0 all 1000
expect 'a watch whose output is refused' sh -c "timeout 60 ip netns exec $front-2 xns-net watch -i eth0 --dump -c 1 2>&1 > /dev/full; [ \$? -eq 3 ]"
expect 'ends with the status of xns' grep -q '^xns: ' "$work/out"
end_all

# ---- two programs at one station

begin 1 "$work/server" -i eth0
begin 1 xns-net serve -i eth0 --socket 6
expect 'two programs at one station' listened 1 0600 2
prints 'the one' 'return 0 5' at 2 "$work/client" -i eth0 "$(station 1)" 5
prints 'the other' 'return 0000 0007' at 2 xns-net call 1.0200aa000001.6 7 1 1 0007 -i eth0
end_all

# ---- an interface that goes down and comes back, at each side, and both that are taken away and made anew, while calls are made

for side in 1 2 both; do
    for language in C Python; do
        # So many calls that they are not all answered as the interface goes down.
        if [ $language = C ]; then
            begin 1 "$work/server" -i eth0
            calls=60000
        else
            begin 1 xns-net serve -i eth0
            calls=12000
        fi
        sum=$((calls * (calls + 1) / 2))
        expect "a server in $language is there again" answers 2 1
        { at 2 "$work/client" -i eth0 "$(station 1)" $(seq 1 $calls) > "$work/many" 2> "$work/err"; } &
        calling=$!
        sleep 0.15
        if [ $side = both ]; then ip -n "$front-1" link del eth0; else ip -n "$front-$side" link set eth0 down; fi
        expect "calls go on as side $side goes down, $language" kill -0 $calling
        sleep 0.7
        if [ $side = both ]; then plug; else ip -n "$front-$side" link set eth0 up; fi
        wait $calling
        ended=$?
        expect "side $side was down for a while, $language" test $ended -eq 0 -a "$(wc -l < "$work/many")" -eq $calls
        expect 'and no call was made twice' test "$(tail -n 1 "$work/many")" = "return $((sum / 65536)) $((sum % 65536))"
        end_all
    done
done

# ---- one host at two interfaces; libpcap

remove_all
add_station 1
for number in 2 3; do
    add_station $number
    ip link add name eth0 netns "$front-$number" address "$(station $number)" type veth peer name eth$number netns "$front-1" address "$(station 1)"
    ip -n "$front-$number" link set eth0 up
    ip -n "$front-1" link set eth$number up
done
begin 1 "$work/epoll" "$(station 1)"
served=$started
for number in 2 3; do
    expect "a host at two interfaces answers station $number" answers $number 1
    prints 'and its calls' "$longest
return 0 bytes, the same" at $number "$work/client" -i eth0 "$(station 1)" x131060 x0
done
kill "$served"
wait "$served"
expect 'it ends when it is told to' test $? -eq 0

# Runs that host with its k-th growth refused, for every k up to the first run that sees no refusal. Each must answer and end by itself, unless its host is
# not made: it ends then before it answers anything.
refuse_each() {
    growth=0
    lived=0
    while :; do
        growth=$((growth + 1))
        rm -f "$work/growths"
        begin 1 env REFUSE_AT=$growth GROWTHS_TO="$work/growths" "$work/refused_epoll" "$(station 1)"
        sleep 0.1
        tries=0
        until [ -s "$work/growths" ] || at 2 "$work/ping" -i eth0 "$(station 1)" 1 > "$work/new" 2>&1 || [ $tries -eq 10 ]; do tries=$((tries + 1)); done
        if [ ! -s "$work/growths" ]; then
            lived=$((lived + 1))
            at 2 "$work/client" -i eth0 "$(station 1)" 1 x1000 > "$work/out" 2> "$work/err"
            printf 'return 1\nreturn 1000 bytes, the same\n' | cmp -s - "$work/out" || { fail "calls with growth $growth refused"; return; }
        fi
        end_all
        if [ ! -s "$work/growths" ]; then fail "it does not end by itself with growth $growth refused" "$said"; return; fi
        if [ "$(cat "$work/growths")" -lt $growth ]; then break; fi
    done
    expect 'more than ten growths of a host that was made were refused' test $lived -gt 10
}

expect 'it is built to be refused memory' "$compiler" $flags -Wl,--wrap=malloc,--wrap=realloc examples/c/epoll.c tests/c/refuse.c $archive "$heap" -o "$work/refused_epoll"
refuse_each

cable
begin 1 "$work/server" -i eth0
if "$compiler" $flags examples/c/pcap.c $archive "$heap" -lpcap -o "$work/pcap" 2> "$work/log"; then
    expect 'a server for libpcap' answers 2 1
    prints 'calls by libpcap, as another station' "return 0 5
$longest" at 2 "$work/pcap" -p eth0 02:00:aa:00:00:77 "$(station 1)" 5 x131060
else left_out libpcap 'calls by it'; fi

# ---- four stations: two servers, and two clients of both at once

# Begins both servers, and waits for them.
serve_both() {
    begin 1 "$work/server" -i eth0
    begin 2 xns-net serve -i eth0
    for number in 1 2; do expect "server $number $1" answers 3 $number; done
}

# Runs the clients, each with so many calls that add 1: together they are told each total once.
call_both() {
    name=$1 calls=$2
    shift 2
    serve_both "$name"
    clients=
    : > "$work/err"
    for number in 3 4; do
        for server in 1 2; do
            # shellcheck disable=SC2046
            { at $number "$@" eth0 "$(station $server)" $(yes 1 | head -n "$calls") > "$work/told.$server.$number" 2>> "$work/err"; } &
            clients="$clients $!"
        done
    done
    for one in $clients; do wait "$one" || echo "a client ended with $?" >> "$work/err"; done
    seq 1 $((2 * calls)) > "$work/wanted"
    for server in 1 2; do
        sed 's/^return 0 //' "$work/told.$server.3" "$work/told.$server.4" | sort -n > "$work/totals"
        if [ ! -s "$work/err" ] && cmp -s "$work/wanted" "$work/totals"; then pass; else fail "clients of server $server $name"; fi
    done
}

for language in C Python; do
    star
    ip -n "$front-hub" link add br0 type bridge mcast_snooping 0
    ip -n "$front-hub" link set br0 up
    for number in 1 2 3 4; do ip -n "$front-hub" link set p$number master br0; done
    if [ $language = C ]; then call_both 'at a bridge, in C' 50 "$work/client" -i; else call_both 'at a bridge, in Python' 50 python3 tests/network.py add; fi
done
expect 'Echo to all at a bridge' at 3 xns-net ping all -i eth0 -c 2 --interval 0.2 --wait 0.3
expect 'is answered by both' grep -q '^2 sent, 2 answered, from 2 hosts, 0% lost$' "$work/out"

# Where three of ten are lost the client in C is patient, as the one in Python always is. A server waits up to 8 seconds before it sends an answer again, so
# twenty calls may take minutes then.
seconds=400
for harm in 0.1 0.3; do
    for language in C Python; do
        star
        begin hub python3 tests/network.py hub $harm 20 $harm $harm p1 p2 p3 p4
        spoiling=$started
        spoiled=$said
        name="at a hub that spoils $harm, in $language"
        if [ $harm = 0.3 ]; then patience=--patient; else patience=; fi
        # shellcheck disable=SC2086
        if [ $language = C ]; then call_both "$name" 20 "$work/client" $patience -i; else call_both "$name" 20 python3 tests/network.py add; fi
        kill "$spoiling"
        wait "$spoiling" 2> /dev/null
        expect 'it spoiled' grep -Eq 'corrupted [0-9]+ lost [0-9]+ repeated [0-9]+ sent [0-9]+' "$spoiled"
    done
done
finish
