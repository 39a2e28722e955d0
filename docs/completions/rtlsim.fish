# Completions of rtlsim for fish.

# The words in front of the one that is completed, without options: the program's name, the command and its operands.
function __rtlsim_words
    set -l is_value no
    for word in (commandline -opc)
        if test $is_value = yes
            set is_value no
        else if contains -- $word --order --with --expect --generic --trace
            set is_value yes
        else if not string match -q -- '-?*' $word
            echo $word
        end
    end
end

function __rtlsim_is_first
    test (count (__rtlsim_words)) -eq 1
end

function __rtlsim_is
    set -l words (__rtlsim_words)
    test (count $words) -gt 1; and test $words[2] = $argv[1]
end

# Whether the operand of this place, from 1, comes next: with a '-' behind it, that one or a later one.
function __rtlsim_is_at
    __rtlsim_is $argv[1]; or return 1
    set -l place (math (count (__rtlsim_words)) - 1)
    string match -q -- '*-' $argv[2]; and test $place -ge (string trim -r -c - -- $argv[2]); and return
    test $place = $argv[2]
end

# The entities of the source.
function __rtlsim_tops
    set -l words (__rtlsim_words)
    string match -rgi '^\s*entity\s+(\w+)\s' < $words[3] 2>/dev/null
end

function __rtlsim_inputs
end

complete -c rtlsim -f
complete -c rtlsim -n __rtlsim_is_first -l help -d 'Prints help'
complete -c rtlsim -n __rtlsim_is_first -l version -d 'Prints the version'

# The commands, and what stands behind each.
# written by tools/pages
complete -c rtlsim -n __rtlsim_is_first -a eval -d 'Prints the outputs under these inputs'
complete -c rtlsim -n '__rtlsim_is eval' -l with -r -F -d 'A file whose text stands before the source'\''s; any number'
complete -c rtlsim -n '__rtlsim_is eval' -l files -r -F -d 'A list of the source'\''s files, in place of FILE: a name a line'
complete -c rtlsim -n '__rtlsim_is eval' -l generic -x -d 'An integer for a generic of the top, also as -gNAME=VALUE; any number'
complete -c rtlsim -n '__rtlsim_is eval' -l explain -d 'Explains each fault: its place, the line, and what to do'
complete -c rtlsim -n '__rtlsim_is eval' -l wide -d 'Reads more of VHDL; see docs/WIDE.md'
complete -c rtlsim -n '__rtlsim_is_at eval 1' -F -d 'The source, or @ for the standard input'
complete -c rtlsim -n '__rtlsim_is_at eval 2' -a '(__rtlsim_tops)' -d 'The entity at the top'
complete -c rtlsim -n '__rtlsim_is_at eval 3-' -a '(__rtlsim_inputs)' -d 'An input'\''s value, of the characters U X 0 1 Z W L H -'
complete -c rtlsim -n __rtlsim_is_first -a net -d 'Prints the nets and what drives each'
complete -c rtlsim -n '__rtlsim_is net' -l with -r -F -d 'A file whose text stands before the source'\''s; any number'
complete -c rtlsim -n '__rtlsim_is net' -l files -r -F -d 'A list of the source'\''s files, in place of FILE: a name a line'
complete -c rtlsim -n '__rtlsim_is net' -l generic -x -d 'An integer for a generic of the top, also as -gNAME=VALUE; any number'
complete -c rtlsim -n '__rtlsim_is net' -l explain -d 'Explains each fault: its place, the line, and what to do'
complete -c rtlsim -n '__rtlsim_is net' -l wide -d 'Reads more of VHDL; see docs/WIDE.md'
complete -c rtlsim -n '__rtlsim_is_at net 1' -F -d 'The source, or @ for the standard input'
complete -c rtlsim -n '__rtlsim_is_at net 2' -a '(__rtlsim_tops)' -d 'The entity at the top'
complete -c rtlsim -n __rtlsim_is_first -a check -d 'Says whether the design is sure to settle'
complete -c rtlsim -n '__rtlsim_is check' -l with -r -F -d 'A file whose text stands before the source'\''s; any number'
complete -c rtlsim -n '__rtlsim_is check' -l files -r -F -d 'A list of the source'\''s files, in place of FILE: a name a line'
complete -c rtlsim -n '__rtlsim_is check' -l generic -x -d 'An integer for a generic of the top, also as -gNAME=VALUE; any number'
complete -c rtlsim -n '__rtlsim_is check' -l explain -d 'Explains each fault: its place, the line, and what to do'
complete -c rtlsim -n '__rtlsim_is check' -l wide -d 'Reads more of VHDL; see docs/WIDE.md'
complete -c rtlsim -n '__rtlsim_is check' -l dot -d 'Draws the levels of one that is, as a graph of Graphviz'
complete -c rtlsim -n '__rtlsim_is check' -l json -d 'Prints the verdict as an object of JSON, for tools'
complete -c rtlsim -n '__rtlsim_is_at check 1' -F -d 'The source, or @ for the standard input'
complete -c rtlsim -n '__rtlsim_is_at check 2' -a '(__rtlsim_tops)' -d 'The entity at the top'
complete -c rtlsim -n __rtlsim_is_first -a run -d 'Prints the trace under a stimulus'
complete -c rtlsim -n '__rtlsim_is run' -l with -r -F -d 'A file whose text stands before the source'\''s; any number'
complete -c rtlsim -n '__rtlsim_is run' -l files -r -F -d 'A list of the source'\''s files, in place of FILE: a name a line'
complete -c rtlsim -n '__rtlsim_is run' -l generic -x -d 'An integer for a generic of the top, also as -gNAME=VALUE; any number'
complete -c rtlsim -n '__rtlsim_is run' -l explain -d 'Explains each fault: its place, the line, and what to do'
complete -c rtlsim -n '__rtlsim_is run' -l wide -d 'Reads more of VHDL; see docs/WIDE.md'
complete -c rtlsim -n '__rtlsim_is run' -l event -d 'Simulates by events alone, without the checker'
complete -c rtlsim -n '__rtlsim_is run' -l order -x -a 'forward reverse' -d 'The order in which resumed processes run'
complete -c rtlsim -n '__rtlsim_is run' -l levels -d 'Computes the same without delta cycles, level by level'
complete -c rtlsim -n '__rtlsim_is run' -l trace -x -d 'Shows this signal, or all below this instance; any number'
complete -c rtlsim -n '__rtlsim_is run' -l no-trace -d 'Writes no trace'
complete -c rtlsim -n '__rtlsim_is run' -l expect -r -F -d 'Compares with the values that FILE expects'
complete -c rtlsim -n '__rtlsim_is run' -l progress -d 'Shows how far the run is'
complete -c rtlsim -n '__rtlsim_is_at run 1' -F -d 'The source, or @ for the standard input'
complete -c rtlsim -n '__rtlsim_is_at run 2' -a '(__rtlsim_tops)' -d 'The entity at the top'
complete -c rtlsim -n '__rtlsim_is_at run 3' -F -d 'The stimulus, or @ for the standard input'
# end of what tools/pages writes
