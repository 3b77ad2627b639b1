#!/usr/bin/env bash
# Compares the words for numbers that C has (include/peatmitten_words.h and, for terminals with owners, include/peatmitten_bank_words.h) with
# docs/NUMBERS.md.
set -euo pipefail
test_name=words
. "$(dirname "$0")/host.sh"
need_library
need_c
need_work

# compare HEADER FUNCTIONS ARCHIVE: what two functions of a header say of each number, beside the rows on standard input.
compare() {
    cat >"$work/words.c" <<TEXT
#include <stdio.h>

#include "$1"

int main(void)
{
    for (uint32_t number = 0; number < 100; number++)
        printf("%u %s\\n", (unsigned)number, $2_words(number));
    for (uint32_t fault = 1; fault < 100; fault++)
        printf("C%u %s\\n", (unsigned)fault, $2_config_words(fault));
    return 0;
}
TEXT
    "$CC" -std=c11 -Wall -Wextra -Wpedantic -Werror -I"$root/include" "$work/words.c" "$3" -o "$work/words" || say_failed "the words of $1 do not compile"
    $EMULATOR "$work/words" | grep -v ' no number of the library$\| no fault of a configuration$' | sort >"$work/said"
    sort >"$work/written"
    [ -s "$work/written" ] || say_failed "docs/NUMBERS.md has no numbers"
    diff "$work/written" "$work/said" || say_failed "docs/NUMBERS.md (<) and include/$1 (>) differ"
}

# The rows of the numbers; where is_bank is 1, those of terminals with owners in the place of the others.
rows() {
    awk -F ' *[|] *' -v is_bank="$1" '
        /^## / { of_bank = $0 == "## Terminals with owners" }
        $2 ~ /^C?[0-9]+$/ && (is_bank || !of_bank) { told[$2] = $3 }
        END { for (number in told) print number, told[number] }
    ' "$root/docs/NUMBERS.md"
}

rows 0 | compare peatmitten_words.h peatmitten "$ARCHIVE"
rows 1 | compare peatmitten_bank_words.h peatmitten_bank "$BANK_ARCHIVE"
echo "words: ok"
