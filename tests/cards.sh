# shellcheck shell=sh disable=SC2154
# How the lab's program `cards` is tested: the lesson on paper, random logs with random cards lost, and
# all that it refuses, every file byte for byte as it was. tests/lab_test reads this file and has the
# words `lab` and $room.

cards() {
    lab cards "$@" 2>&1
}

# The commands of the lesson on paper, each with what it says.
cards_by_hand() {
    log=$room/log.txt folder=$room/cards
    mkdir -p "$folder"
    printf '09:05 hawk over the north pier\n' >"$log"
    echo '$ cards'
    cards
    echo '$ cards write 3 2 8 log.txt cards'
    cards write 3 2 8 "$log" "$folder"
    wc -c "$folder"/* | awk '{ sub(".*/", "", $2); print $1, $2 }'
    echo '$ rm cards/card_1 cards/card_3'
    rm "$folder/card_1" "$folder/card_3"
    echo '$ cards read 3 2 8 31 cards back.txt'
    cards read 3 2 8 31 "$folder" "$room/back.txt"
    cat "$room/back.txt"
    echo '$ rm cards/card_2'
    rm "$folder/card_2" "$room/back.txt"
    echo '$ cards read 3 2 8 31 cards back.txt'
    cards read 3 2 8 31 "$folder" "$room/back.txt" | sed "s|$room/||"
    ls "$room/back.txt" 2>/dev/null
    echo '$ cards write 9 2 8 log.txt cards'
    cards write 9 2 8 "$log" "$folder"
}

cards_as_on_paper() {
    cards_by_hand >"$room/printed"
    diff lab/expected/5_cards "$room/printed"
}

# Random numbers that are the same in every run: k m l, the log's length, then m lost cards.
draw_case() { # SEED
    awk -v seed="$1" -v max_k="$WH_MAX_K" -v max_m="$WH_MAX_M" -v max_l="$WH_MAX_LENGTH" '
        function below(n) { return int(n * rand()) }
        BEGIN {
            srand(seed); rand(); rand()
            k = 1 + below(max_k); m = 1 + below(max_m); l = 1 + below(max_l)
            length_ = seed % 5 == 0 ? k * l * below(4) : below(1500)
            printf "%d %d %d %d", k, m, l, length_
            for (left = m; left > 0; ) {
                card = 1 + below(k + m)
                if (!(card in lost)) { lost[card]; left--; printf " %d", card }
            }
        }'
}

random_log() { # SEED LENGTH
    # shellcheck disable=SC2059
    printf "$(awk -v seed="$1" -v length_="$2" 'BEGIN {
        srand(seed)
        for (i = 0; i < length_; i++) printf "\\%03o", int(256 * rand())
    }')"
}

round_trip() { # SEED
    # shellcheck disable=SC2046
    set -- "$1" $(draw_case "$1")
    seed=$1 k=$2 m=$3 l=$4 length=$5
    shift 5
    rm -rf "$room/trip"
    mkdir "$room/trip"
    random_log "$seed" "$length" >"$room/trip/log"
    cards write "$k" "$m" "$l" "$room/trip/log" "$room/trip" || return
    for lost in "$@"; do
        rm "$room/trip/card_$lost"
    done
    cards read "$k" "$m" "$l" "$length" "$room/trip" "$room/trip/back" || return
    cmp "$room/trip/log" "$room/trip/back" || { echo "k $k m $m l $l lost $*"; return 1; }
}

round_trips() {
    for seed in $(seq 1 40); do
        round_trip "$seed" || return
    done
}

# A log on six cards.
write_sample() {
    rm -rf "$room/sample"
    mkdir "$room/sample"
    random_log 7 500 >"$room/sample/log"
    cards write 4 2 40 "$room/sample/log" "$room/sample"
}

read_sample() {
    cards read 4 2 40 500 "$room/sample" "$room/sample/back"
}

turn_bit() { # FILE BYTE
    byte=$(od -An -tu1 -j "$2" -N 1 "$1")
    # shellcheck disable=SC2059
    printf "$(printf '\\%03o' $((byte ^ 1)))" | dd of="$1" bs=1 seek="$2" conv=notrunc 2>/dev/null
}

# The command ends badly, says these words, and leaves all files byte for byte, with none beside.
refused() { # WORDS COMMAND...
    words=$1
    shift
    rm -rf "$room/before"
    cp -R "$room/sample" "$room/before" || return
    said=$("$@") && { echo "$* went on: $said"; return 1; }
    echo "$said" | grep -q -e "$words" || { echo "$* said: $said"; return 1; }
    diff -r "$room/before" "$room/sample"
}

turned_bit_is_refused() {
    write_sample || return
    rm "$room/sample/card_1" "$room/sample/card_2"
    turn_bit "$room/sample/card_6" 60
    foreign="stripe 2: $WH_FOREIGN, no sources encode to these packets"
    refused "$foreign" read_sample || return
    echo 'an older log' >"$room/sample/back"
    refused "$foreign" read_sample
}

# The parities of a log with so many stripes of two bytes; the sources are lost.
write_stripes() { # STRIPES
    rm -rf "$room/sample"
    mkdir "$room/sample"
    random_log 12 $((2 * $1)) >"$room/sample/log"
    cards write 2 3 1 "$room/sample/log" "$room/sample" || return
    rm "$room/sample/card_1" "$room/sample/card_2"
}

read_stripes() { # STRIPES
    cards read 2 3 1 $((2 * $1)) "$room/sample" "$room/sample/back"
}

# Fewer stripes than the library takes in a call, as many, and more.
stripes_of_several_calls() {
    for stripes in 1 $((WH_MAX_STRIPES - 1)) "$WH_MAX_STRIPES" $((WH_MAX_STRIPES + 1)) \
        $((2 * WH_MAX_STRIPES)) $((5 * WH_MAX_STRIPES + 3)); do
        write_stripes "$stripes" && read_stripes "$stripes" &&
            cmp "$room/sample/log" "$room/sample/back" || return
    done
}

# The first of the bad stripes is named, whichever call it is read in; the last one is bad too.
bad_stripe_is_named() {
    last=$((2 * WH_MAX_STRIPES + 8))
    for stripe in 1 2 "$WH_MAX_STRIPES" $((WH_MAX_STRIPES + 1)) $((last - 1)); do
        write_stripes "$last" || return
        rm "$room/sample/card_5"
        turn_bit "$room/sample/card_3" $((2 * last - 1))
        refused "stripe $last: $WH_FOREIGN, no sources encode to these packets" read_stripes "$last" ||
            return
        turn_bit "$room/sample/card_3" $((2 * stripe - 1))
        refused "stripe $stripe: $WH_FOREIGN, no sources" read_stripes "$last" || return
    done
}

# A card that was not needed, and differs in a stripe before the bad one, is told first.
good_stripes_before_a_bad_one_are_compared() {
    write_stripes 5 || return
    turn_bit "$room/sample/card_4" 7
    refused "stripe 4: $WH_FOREIGN," read_stripes 5 || return
    turn_bit "$room/sample/card_5" 4
    refused 'a card is bad or of another log, or K, M or L is wrong, in' read_stripes 5
}

short_card_counts_as_lost() {
    write_sample || return
    rm "$room/sample/card_1"
    head -c 100 "$room/sample/card_3" >"$room/sample/cut"
    mv "$room/sample/cut" "$room/sample/card_3"
    said=$(read_sample) || { echo "$said"; return 1; }
    echo "$said" | grep -q 'card_3 has a wrong length' || return
    echo "$said" | grep -qx '500 bytes from cards 2 4 5 6' || { echo "$said"; return 1; }
    cmp "$room/sample/log" "$room/sample/back"
}

# A new log onto the same cards, and a new log over an older one.
cards_are_replaced_whole() {
    write_sample || return
    random_log 8 900 >"$room/sample/log"
    echo 'an older log' >"$room/sample/back"
    cards write 3 3 17 "$room/sample/log" "$room/sample" &&
        cards read 3 3 17 900 "$room/sample" "$room/sample/back" &&
        cmp "$room/sample/log" "$room/sample/back" || return
    ! find "$room/sample" -name '*.new' | grep .
}

# A file that is replaced keeps its rights, and who may not read it still may not.
rights_are_kept() {
    write_sample || return
    chmod 600 "$room/sample/card_2"
    write_from log && read_into "$room/sample/back" || return
    [ "$(stat -c %a "$room/sample/card_2")" = 600 ] || return
    [ "$(stat -c %a "$room/sample/back")" = "$(stat -c %a "$room/sample/card_1")" ]
}

# The third rename is refused: two cards are new and four old. That is said, the four stay beside, and
# nothing is read until they have their names.
half_written_cards_are_not_read() {
    write_sample || return
    # shellcheck disable=SC2086
    "${prefix}gcc" -std=c99 $warnings -Werror -Iinclude -Ilab $link -Wl,--wrap=rename lab/5_cards.c \
        tests/cards/refusing.c target/staticlib/libwindhawker.a -o "$room/refusing" || return
    random_log 8 500 >"$room/sample/log"
    said=$($emulator "$room/refusing" write 4 2 40 "$room/sample/log" "$room/sample" 2>&1) && return 1
    echo "$said" | grep -q 'ONLY the files before it are new, cannot rename .*/card_3.new: ' ||
        { echo "$said"; return 1; }
    refused 'a write was broken off, and the cards may be of two logs: .*/card_3.new' read_sample ||
        return
    for card in 3 4 5 6; do
        mv "$room/sample/card_$card.new" "$room/sample/card_$card" || return
    done
    read_sample && cmp "$room/sample/log" "$room/sample/back"
}

# What was done is said, LENGTH with it; where it cannot be said that is told.
unsaid_length_is_told() {
    write_sample || return
    lab cards write 4 2 40 "$room/sample/log" "$room/sample" 2>"$room/said" >/dev/full && return 1
    grep -q 'the files are written, but not what was done: ' "$room/said"
}

write_from() { # LOG [FOLDER]
    cards write 4 2 40 "$room/sample/$1" "$room/sample${2-}"
}

read_into() { # LOG
    cards read 4 2 40 500 "$room/sample" "$1"
}

# What the program writes has no room: a file may not grow.
without_room() { # COMMAND...
    (trap '' XFSZ; ulimit -f 0; "$@")
}

write_from_a_bad_log() {
    write_sample || return
    mkdir "$room/sample/folder"
    refused 'cannot open .*/missing: No such file or directory' write_from missing &&
        refused 'cannot read .*/folder: Is a directory' write_from folder &&
        refused 'refused, 1: k or m is outside' cards write 9 2 40 "$room/sample/log" "$room/sample"
}

write_to_bad_cards() {
    write_sample || return
    refused 'missing/card_1: No such file or directory' write_from log /missing || return
    refused 'log/card_1: Not a directory' write_from log /log || return
    refused 'cannot write .*/card_1.new: File too large' without_room write_from log || return
    echo 'mine' >"$room/sample/card_5.new"
    refused 'left by a write that was broken off.*/card_5.new' write_from log || return
    rm "$room/sample/card_6"
    mv "$room/sample/card_5.new" "$room/sample/elsewhere"
    ln -s elsewhere "$room/sample/card_6"
    refused 'not a plain file: .*/card_6' write_from log || return
    rm "$room/sample/card_6"
    mkdir "$room/sample/card_6"
    refused 'not a plain file: .*/card_6' write_from log
}

# By their names, by another way to the same name, and by other names of the same file.
log_among_the_cards() {
    write_sample || return
    ln "$room/sample/card_2" "$room/sample/link"
    ln -s card_3 "$room/sample/symbolic"
    for log in card_1 ../sample//card_6 link symbolic; do
        refused 'the log is one of the cards: ' write_from "$log" &&
            refused 'the log is one of the cards: ' read_into "$room/sample/$log" || return
    done
    rm "$room/sample/card_5"
    refused 'the log is one of the cards: ' read_into "$room/sample/card_5" &&
        refused 'the log is one of the cards: ' read_into "$room/sample/../sample/card_5" || return
    refused 'the log is one of the cards: card_5' in_sample read 4 2 40 500 . card_5
}

in_sample() { # WORDS...
    (cd "$room/sample" && $emulator ../../../lab/cards "$@" 2>&1)
}

card_given_twice() {
    write_sample || return
    ln -f "$room/sample/card_1" "$room/sample/card_4"
    refused 'the same file as a card before it: .*/card_4' write_from log &&
        refused 'the same file as a card before it: .*/card_4' read_into "$room/sample/back" || return
    rm "$room/sample/card_4"
    ln -s card_1 "$room/sample/card_4"
    refused 'the same file as a card before it: .*/card_4' write_from log &&
        refused 'the same file as a card before it: .*/card_4' read_into "$room/sample/back"
}

read_into_a_bad_log() {
    write_sample || return
    mkdir "$room/sample/folder"
    echo 'mine' >"$room/sample/back.new"
    ln -s back.new "$room/sample/symbolic"
    refused 'not a plain file: .*/folder' read_into "$room/sample/folder" &&
        refused 'not a plain file: .*/symbolic' read_into "$room/sample/symbolic" &&
        refused 'missing/log: No such file or directory' read_into "$room/sample/missing/log" &&
        refused 'left by a write that was broken off.*/back.new' read_into "$room/sample/back" || return
    rm "$room/sample/back.new" "$room/sample/symbolic"
    refused 'cannot write .*/log.new: File too large' without_room read_into "$room/sample/log"
}

# K M L LENGTH that the cards were not written with; LENGTH beyond all that the cards hold.
read_with_wrong_numbers() {
    write_sample || return
    refused 'K or M is wrong, or this is of another log and to be removed: .*/card_6' \
        cards read 3 2 40 500 "$room/sample" "$room/sample/log" || return
    for numbers in '4 2 39 500' '4 2 40 641' '4 2 40 480' '4 2 40 0' '5 2 40 500' \
        '4 2 40 18446744073709551615' '8 8 1 18446744073709551615'; do
        # shellcheck disable=SC2086
        refused 'perhaps K, M, L or LENGTH is not what' \
            cards read $numbers "$room/sample" "$room/sample/log" || return
    done
    for length in 18446744073709551616 -1 5x ''; do
        refused 'not a number:' cards read 4 2 40 "$length" "$room/sample" "$room/sample/log" ||
            return
    done
}

# Numbers that fit the lengths of the sources, as many cards as wanted are there: half of L, which the
# parities tell, and a LENGTH too small by less than a stripe, which the fill tells.
read_with_numbers_that_nearly_fit() {
    write_sample || return
    for length in 499 481; do
        refused 'the log goes on after LENGTH bytes in' \
            cards read 4 2 40 "$length" "$room/sample" "$room/sample/log" || return
    done
    random_log 9 640 >"$room/sample/log"
    write_from log || return
    refused 'no parity has its length (remove them if they are broken) in' \
        cards read 4 2 20 640 "$room/sample" "$room/sample/log" || return
    echo "$said" | grep -q 'perhaps K, M, L or LENGTH is not what'
}

# As many cards fit as are wanted, and the others tell: K and M exchanged, a card of another log, a card
# of an older write of more cards.
read_with_other_cards_that_differ() {
    write_sample || return
    random_log 9 133 >"$room/sample/log"
    rm "$room"/sample/card_*
    cards write 3 2 40 "$room/sample/log" "$room/sample" || return
    mv "$room/sample/card_3" "$room/sample/third"
    differ='a card is bad or of another log, or K, M or L is wrong, in'
    refused "$differ" cards read 2 3 40 133 "$room/sample" "$room/sample/log" || return
    mv "$room/sample/third" "$room/sample/card_3"
    mkdir "$room/sample/other"
    random_log 10 133 >"$room/sample/other/log"
    cards write 3 2 40 "$room/sample/other/log" "$room/sample/other" || return
    cp "$room/sample/other/card_2" "$room/sample/card_2"
    refused "$differ" cards read 3 2 40 133 "$room/sample" "$room/sample/log" || return
    : >"$room/sample/card_16"
    refused 'K or M is wrong, .*/card_16' cards read 3 2 40 133 "$room/sample" "$room/sample/log"
}

# Zeros behind the log, which may be its own, are told; no folder is not the root.
doubtful_end_is_told() {
    write_sample || return
    said=$(cards read 4 2 40 501 "$room/sample" "$room/sample/back") || { echo "$said"; return 1; }
    echo "$said" | grep -q 'the log ends with a zero byte: is LENGTH what write said?' || return
    said=$(read_sample) || { echo "$said"; return 1; }
    ! echo "$said" | grep 'zero byte' || return
    refused 'the name of a folder is empty: CARDS_DIR' cards write 4 2 40 "$room/missing" ''
}

# A length whose packets together are 0 bytes when their sum is cut to 64 bits.
read_from_empty_cards() {
    write_sample || return
    for card in $(seq 1 16); do
        : >"$room/sample/card_$card"
    done
    refused 'card_16 has a wrong length and counts as lost: 0 bytes, not 2305843009213693952' \
        cards read 8 8 1 18446744073709551615 "$room/sample" "$room/sample/log"
}

# No card has another length, so nothing is asked about the numbers.
read_from_too_few_cards() {
    write_sample || return
    rm "$room/sample/card_1" "$room/sample/card_3" "$room/sample/card_6"
    refused 'fewer than K cards in' read_into "$room/sample/log" || return
    ! echo "$said" | grep 'perhaps K' || return
    mkdir "$room/sample/card_3"
    refused 'card_3 counts as lost: not a plain file' read_into "$room/sample/log"
}
