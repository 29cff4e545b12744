#!/usr/bin/env bash
# Packets, CONNECT and BREAK that the desk writes, held field by field against Wireshark's reader of SPRT, which nobody here wrote.
# Where tshark cannot be had the test is skipped, aloud.
set -u
cd "$(dirname "$0")/.." || exit 2
# shellcheck source=tests/install.bash
. tests/install.bash
need tshark tshark
need text2pcap wireshark-common
log=$(mktemp -d) || exit 2
trap 'rm -rf "$log"' EXIT
# shellcheck source=tests/run.bash
. tests/run.bash
built desk

# Each line of the script whose answer is a packet stands with what Wireshark must read: identifier, type, channel, number,
# how many acknowledgements, base, their channels, their numbers, octets of payload; then the message and its fields. CONNECT and
# an expedited BREAK go on channel 2, a BREAK that is not expedited where user data go, on channel 1 (Table 16 and 22.1.1.1).
bodies() {
    printf '%s\n' 'connect write 4 3 1 1 33600 31200 0 0 0 1 0 0 1024 0 32 0 0 0' \
        'connect write 17 2 2 2 56000 33600 1 1 0 1 0 1 2048 4096 100 200 5000 6000' \
        'connect write 30 1 3 0 9600 1200 0 0 1 0 1 0 0 0 0 0 0 0' 'break write 1 2 77' 'break write 2 3 255'
}
mapfile -t body < <(bodies | run desk | sed -n 's/^ok //p')
cat > "$log/script" <<S
A open 0 5 98 1 1 0
B open 2 5 98 1 1 0
A ask 0 m 0
B ask 2 m 0
A take 0 2 05${body[0]}
A send 0 2 0
A take 0 2 06${body[3]}
A send 0 2 1
A take 0 2 05${body[1]}
A send 0 2 2
A take 0 2 05${body[2]}
A send 0 2 3
A take 0 1 06${body[4]}
A send 0 1 0
B spoil 2 owed 0 1 16383
B spoil 2 owed 1 2 0
B spoil 2 owed 2 2 8191
B spoil 2 owed 3 1 1
B spoil 2 owing 4
B spoil 2 next 1 16777
B spoil 2 next 2 16384
B empty 2 1
B empty 2 0
B empty 2 2
B open 3 127 127 1 1 0
B ask 3 m 0
B spoil 3 taken 2 4
B spoil 3 base 2 3
B spoil 3 held 2 3 0102
B spoil 3 next 2 7
B spoil 3 owed 0 1 16383
B spoil 3 owed 1 2 0
B spoil 3 owing 2
B send 3 2 0
S
cat > "$log/expected" <<S
5|98|2|0|0|0|||15|5|4|3|1|1|33600|31200|0|0|0|1|0|0|1024|0|32|0|||||
5|98|2|1|0|0|||3|6|||||||||||||||||||1|2|77
5|98|2|2|0|0|||19|5|17|2|2|2|56000|33600|1|1|0|1|0|1|2048|4096|100|200|5000|6000|||
5|98|2|3|0|0|||9|5|30|1|3|0|9600|1200|0|0|1|0|1|0|||||||||
5|98|1|0|0|0|||3|6|||||||||||||||||||2|3|255
5|98|1|0|3|393|1,2,2|16383,0,8191|||||||||||||||||||||||
5|98|0|0|1|0|1|1|||||||||||||||||||||||
5|98|2|0|0|0|||||||||||||||||||||||||
127|127|2|3|2|7|1,2|16383,0|2|1|||||||||||||||||||||
S
run desk < "$log/script" | sed -n 's/^ok \([0-9A-F]\{12,\}\)$/\1/p' > "$log/packets"
sed 's/../& /g; s/^/0000 /' "$log/packets" > "$log/dump"
text2pcap -q -u 5000,5001 "$log/dump" "$log/pcap" >/dev/null 2>&1
c=sprt.payload.msg_connect
b=sprt.payload.msg_break
fields=(sprt.ssid sprt.pt sprt.tc sprt.seq sprt.noa sprt.bsqn sprt.tcn sprt.sqn sprt.payload.length sprt.payload.msgid
    "$c".{selmod,compr_dir,selected_compr,selected_err_corr,tdsr,rdsr,dlci_enabled}
    "$c".{adt_octet_no_format_no_dlci,adt_i_raw_bit,adt_i_frame,adt_i_char_stat,adt_i_char_dyn}
    "$c".{compr_trans_dict_sz,compr_recv_dict_sz,compr_trans_str_len,compr_recv_str_len}
    "$c".{compr_trans_hist_sz,compr_recv_hist_sz} "$b".{source_proto,type,length})
tshark -r "$log/pcap" -d udp.port==5001,sprt -T fields -E separator='|' "${fields[@]/#/-e}" > "$log/given" 2> "$log/errors"
if ! diff "$log/expected" "$log/given"; then
    cat "$log/errors"
    exit 1
fi
echo "$(wc -l < "$log/given") packets read alike by $(tshark --version 2>/dev/null | head -n 1)"
