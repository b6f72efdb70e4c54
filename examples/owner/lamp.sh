#!/usr/bin/env bash
# The owner of a lamp, with jq: executes the commands of the device that lamp.toml describes.
#
#     enip serve lamp.toml 127.0.0.1:44818 --owner 127.0.0.1:44900
#     bash lamp.sh 127.0.0.1 44900
#
# It remembers nothing, so it executes a command that comes again once more. The device hands over one command at a time
# (lamp.toml has no key `ahead`), so that is the last one, and the lamp stays as it is. With a larger `ahead`, the lamp
# could go through its last states once more. Commands that must not be executed twice need a journal: see conveyor.py.
set -euo pipefail

# The answers to a command: the attribute that shows the lamp, and the end of the command.
answers='.command
    | {write: {class, instance, attribute: 1, values: [.data != "00"]}}, {done: {ticket, status: 0}}'

exec 3<>"/dev/tcp/$1/$2"
while read -r line <&3; do
    case $line in
    '{"hello":'*) jq -r '"owner of \(.hello.name)"' <<<"$line" ;;
    '{"command":'*)
        jq -r '.command | if .data == "00" then "off" else "on" end' <<<"$line"
        jq -c "$answers" <<<"$line" >&3
        ;;
    '{"changed":'*) jq -r '.changed | "brightness \(.values[0]), set by \(.by)"' <<<"$line" ;;
    '{"error":'*) jq -r '"refused: \(.text)"' <<<"$line" >&2 ;;
    esac
done
