#!/usr/bin/env bash
# Writes the manual page of the program, made from its help texts, to standard output.
#
#   tools/manual.sh PROGRAM
#
# A text's first line and its usage begin its part; arguments and options become lists. Of the rest a paragraph is filled if each of
# its lines but the last is full, and kept as it is if not: commands, inputs and tables.
set -eu
export LC_ALL=C
program=$1

# roff: writes the part of a help text that comes on standard input.
roff() {
    awk '
        # literal TEXT: the text as roff writes it unchanged.
        function literal(text) {
            gsub(/\\/, "\\e", text)
            gsub(/-/, "\\-", text)
            gsub(/\047/, "\\(aq", text)
            gsub(/`/, "\\(ga", text)
            gsub(/\^/, "\\(ha", text)
            gsub(/~/, "\\(ti", text)
            return substr(text, 1, 1) == "." ? "\\&" text : text
        }
        function is_prose(    at, words) {
            for (at = 1; at <= count; at++) if (line[at] ~ /  /) return 0
            for (at = 1; at < count; at++) {
                split(line[at + 1], words, " ")
                if (length(line[at]) + 1 + length(words[1]) <= 66) return 0
            }
            return line[1] !~ /^squall / && line[count] ~ /[.:]$/
        }
        # end_part: writes the paragraph or the block of a list that has been read.
        function end_part(    at, gap) {
            if (count == 0) return
            print ".PP"
            if (line[1] ~ /^(Arguments|Options|Commands|Exit status):$/) {
                print literal(line[1])
                for (at = 2; at <= count; at++) {
                    sub(/^ +/, "", line[at])
                    gap = match(line[at], /  +/)
                    printf ".TP\n.B %s\n%s\n", literal(substr(line[at], 1, gap - 1)), literal(substr(line[at], gap + RLENGTH))
                }
            } else if (is_prose()) {
                for (at = 1; at <= count; at++) print literal(line[at])
            } else {
                print ".nf"
                for (at = 1; at <= count; at++) print literal(line[at])
                print ".fi"
            }
            count = 0
        }
        /^Usage: / { end_part(); printf ".PP\n.B %s\n", literal(substr($0, 8)); next }
        /^$/ { end_part(); next }
        { line[++count] = $0 }
        END { end_part() }'
}

version=$("$program" --version)
about=$("$program" help | head -n 1)
printf '.\\" Made by tools/manual.sh of Squall.\n'
printf '.TH SQUALL 1 "" "%s"\n.nh\n.ad l\n.SH NAME\nsquall \\- %s\n.SH SYNOPSIS\n.B squall\n.I COMMAND\n.SH DESCRIPTION\n' "$version" "$about"
"$program" help | sed '1,/^Usage: /d' | roff
echo '.SH COMMANDS'
"$program" help | sed -n '/^Commands:$/,/^$/s/^  \([a-z]*\) .*/\1/p' | grep -vx help | while read -r command; do
    printf '.SS squall %s\n' "$command"
    "$program" help "$command" | roff
done
