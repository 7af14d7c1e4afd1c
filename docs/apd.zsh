#compdef apd
# Made by docs/manual-page of what apd prints.
local curcontext=$curcontext state line
local -a commands
commands=(
    'verify:Verify a program for a hook and print its budget'
    'asm:Assemble a text and print its code, one slot a line'
    'disasm:Print a program'\''s instructions, one a line'
    'trace:Verify a program, run it on a frame and print each step'
    'eval:Judge a capture'\''s frames by a program, and print each verdict'
    'run:Run a script of frames and commands on an access point'
    'live:Answer lines of a script as they come on standard input'
    'cert:Verify a program and print its certificate in hex'
    'check:Check a program'\''s certificate and print the budget'
    'explain:Explain the number of a refusal, or list all numbers'
    'frames:Print a capture'\''s frames as a script for `apd run`'
    'test:Judge policies by files of cases, and print what failed'
    'help:Print this help, or that of a command'
)
_arguments -C '(-h --help)'{-h,--help}'[Print help]' '(-V --version)'{-V,--version}'[Print version]' \
    '1:command:->command' '*::argument:->argument'
case $state in
    command) _describe command commands ;;
    argument)
        case $words[1] in
            verify)
                _arguments -C '1:HOOK:(assoc addba data)' '2:FILE:_files -g "*.hex"' '--config=[The configuration\: shapes of maps, first draw word]:config:_files -g "*.toml"' '--states=[How many states the verifier may examine, 1 to 4194304 \[default\: 4194304\]]:states: ' '--explain[Tell on standard error why, and what is known there]' '--work=[How many units of work may be done, 1 to 1099511627776; without it, any number]:work: ' '--help[Print help]'
                ;;
            asm)
                _arguments -C '1:FILE:_files -g "*.s"' '--output=[Write the output to this file, unless something is refused]:output:_files -g "*.hex"' '--help[Print help]'
                ;;
            disasm)
                _arguments -C '1:FILE:_files -g "*.hex"' '--config=[The configuration\: shapes of maps, first draw word]:config:_files -g "*.toml"' '--slots[Print each line'\''s slot before it, and mark jump targets]' '--raw[Print slots that are no instructions, too, as digits]' '--dot[Print the control-flow graph, for graphviz]' '--output=[Write the output to this file, unless something is refused]:output:_files -g "*.hex"' '--explain[With --dot, tell of each block how many states the verifier examined]' '--help[Print help]'
                ;;
            trace)
                _arguments -C '1:HOOK:(assoc addba data)' '2:FILE:_files -g "*.hex"' '3:FRAME: ' '--config=[The configuration\: shapes of maps, first draw word]:config:_files -g "*.toml"' '--states=[How many states the verifier may examine, 1 to 4194304 \[default\: 4194304\]]:states: ' '--context=[What the program is told, as KEY=VALUE,.. (see the manual)]:context: ' '--from-frame[Tell the program what the frame says of itself]' '--explain[Tell on standard error why, and what is known there]' '--work=[How many units of work may be done, 1 to 1099511627776; without it, any number]:work: ' '--help[Print help]'
                ;;
            eval)
                _arguments -C '1:HOOK:(assoc addba data)' '2:FILE:_files -g "*.hex"' '3:CAPTURE:_files -g "*.(pcap|pcapng)"' '--config=[The configuration\: shapes of maps, first draw word]:config:_files -g "*.toml"' '--against=[The code in force, whose verdicts the link follows\: print only those that differ]:against: ' '--states=[How many states the verifier may examine, 1 to 4194304 \[default\: 4194304\]]:states: ' '--json[Print each verdict as a line of JSON]' '--output=[Write the output to this file, unless something is refused]:output:_files -g "*.hex"' '--work=[How many units of work may be done, 1 to 1099511627776; without it, any number]:work: ' '--profile[Print in place of verdicts how often each instruction was executed]' '--dot[Print that as the control-flow graph, for graphviz]' '--repeat=[Judge all queries N times more, and tell how long a run takes, 1 to 1000000]:repeat: ' '--help[Print help]'
                ;;
            run)
                _arguments -C '1:C:_files -g "*.toml"' '2:SCRIPT:_files -g "*.script"' '--workers=[How many worker threads serve the shards, 1 to 8 \[default\: 2\]]:workers:(1 2 3 4 5 6 7 8)' '--states=[How many states the verifier may examine, 1 to 4194304 \[default\: 4194304\]]:states: ' '--quiet[Tell no progress on standard error]' '--strict[End after the interval of the first refused load, with status 1]' '--verbose[Tell on standard error what becomes of each load]' '--work=[How many units of work may be done, 1 to 1099511627776; without it, any number]:work: ' '--pcap=[Write what comes in, is sent and passed up to this pcapng file; `-`\: in place of the lines]:pcap: ' '--force[Replace a capture that exists]' '--help[Print help]'
                ;;
            live)
                _arguments -C '1:C:_files -g "*.toml"' '--workers=[How many worker threads serve the shards, 1 to 8 \[default\: 2\]]:workers:(1 2 3 4 5 6 7 8)' '--states=[How many states the verifier may examine, 1 to 4194304 \[default\: 4194304\]]:states: ' '--strict[End after the interval of the first malformed line or refused load]' '--verbose[Tell on standard error what becomes of each load]' '--clock[Let time pass by the clock, too]' '--events=[Tell what frames mean\: `text` beside the frames, `json` in their place]:events: ' '--color=[Colours in the answers\: `auto` (at a terminal), `always` or `never`]:color: ' '--work=[How many units of work may be done, 1 to 1099511627776; without it, any number]:work: ' '--pcap=[Write what comes in, is sent and passed up to this pcapng file; `-`\: in place of the lines]:pcap: ' '--force[Replace a capture that exists]' '--help[Print help]'
                ;;
            cert)
                _arguments -C '1:HOOK:(assoc addba data)' '2:FILE:_files -g "*.hex"' '--config=[The configuration\: shapes of maps, first draw word]:config:_files -g "*.toml"' '--states=[How many states the verifier may examine, 1 to 4194304 \[default\: 4194304\]]:states: ' '--output=[Write the output to this file, unless something is refused]:output:_files -g "*.hex"' '--work=[How many units of work may be done, 1 to 1099511627776; without it, any number]:work: ' '--help[Print help]'
                ;;
            check)
                _arguments -C '1:HOOK:(assoc addba data)' '2:FILE:_files -g "*.hex"' '3:CERT:_files -g "*.cert"' '--config=[The configuration\: shapes of maps, first draw word]:config:_files -g "*.toml"' '--work=[How many units of work may be done, 1 to 1099511627776; without it, any number]:work: ' '--help[Print help]'
                ;;
            explain)
                _arguments -C '1:NUMBER:(1 2 3 10 11 12 13 14 15 16 17 18 19 20 21 22 30 31 32 33 34 35 36 37 38 40 50 51 52 53 54 55 56 60 61 62 63 70 71 72)' '--help[Print help]'
                ;;
            frames)
                _arguments -C '1:CAPTURE:_files -g "*.(pcap|pcapng)"' '--no-ticks[Leave out the time between frames]' '--bssid=[The access point'\''s address, unless the frames name only one]:bssid: ' '--all[Keep frames that aren'\''t for the access point]' '--output=[Write the output to this file, unless something is refused]:output:_files -g "*.hex"' '--help[Print help]'
                ;;
            test)
                _arguments -C '1:FILE>...: ' '--help[Print help]'
                ;;
            help)
                _arguments -C '1:COMMAND:->command' '--help[Print help]'
                ;;
        esac
        [[ $state == command ]] && _describe command commands
        ;;
esac
