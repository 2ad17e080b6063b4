# What fish offers behind cbi, cbi-hunt, cbi-show, cbi-explain and cbi-port. To have it: put this file into ~/.config/fish/completions, also as cbi-hunt.fish and so on.

function __cbi_command
    set -l words (commandline -opc)
    test (count $words) -gt 1; and contains -- $words[2] $argv
end

function __cbi_first
    test (count (commandline -opc)) -eq 1
end

for command in transform run bank collect runs rank pairs lines bugs cards session widen study
    complete -c cbi -n __cbi_first -f -a $command
end
complete -c cbi -n '__cbi_command transform' -l mode -x -a 'plain full sampled'
complete -c cbi -n '__cbi_command transform' -l schemes -x -a 'branches returns pairs branches,returns branches,returns,pairs'
complete -c cbi -n '__cbi_command transform widen' -l part -x
complete -c cbi -n '__cbi_command run' -l bank -r
complete -c cbi -n '__cbi_command run' -l input -r
complete -c cbi -n '__cbi_command run runs' -l expect -r
complete -c cbi -n '__cbi_command run runs study' -l turns -x
complete -c cbi -n '__cbi_command run' -l run -x
complete -c cbi -n '__cbi_command run' -l report -r
complete -c cbi -n '__cbi_command bank runs study' -l rate -x -a '1 2 5 10 20 50 100 1000'
complete -c cbi -n '__cbi_command bank' -l count -x
complete -c cbi -n '__cbi_command bank runs study' -l seed -x
complete -c cbi -n '__cbi_command bank' -l stream -x
complete -c cbi -n '__cbi_command collect session' -l program -r
complete -c cbi -n '__cbi_command runs' -l inputs -r
complete -c cbi -n '__cbi_command runs' -l first -x
complete -c cbi -n '__cbi_command rank session study' -l policy -x -a 'all failing relabel'
complete -c cbi -n '__cbi_command lines bugs' -l most -x
complete -c cbi -n '__cbi_command lines' -l apart -x
complete -c cbi -n '__cbi_command bugs' -l also -x
complete -c cbi -n '__cbi_command widen' -l whole -r
complete -c cbi -n '__cbi_command study' -l runs -x

complete -c cbi-hunt -l inputs -r -d 'the inputs: a folder, or a file of lines'
complete -c cbi-hunt -s I -r -d 'a folder of headers'
complete -c cbi-hunt -s D -x -d 'a name that is defined'
complete -c cbi-hunt -s U -x -d 'a name that is not'
complete -c cbi-hunt -o include -r -d 'a file that is read first'
complete -c cbi-hunt -l memory -x -a 'auto cells bytes flat' -d 'how memory is kept'
complete -c cbi-hunt -l stderr -d 'what goes to stderr goes to out'
complete -c cbi-hunt -l wrap -d 'signed integers wrap where they overflow'
complete -c cbi-hunt -l values -x -a 'none some all' -d 'of how many members, elements and dereferences pairs see the values'
complete -c cbi-hunt -x -l cflags -d 'the flags of your own build'
complete -c cbi-hunt -l args -x -a first-line -d 'the arguments of main'
complete -c cbi-hunt -l no-check -d 'does not compare a ported text with gcc'
complete -c cbi-hunt -l expect -r -d 'what the program should write'
complete -c cbi-hunt -l oracle -x -d 'a command that judges what a run wrote'
complete -c cbi-hunt -l oracle-shell -x -d 'the same, read by a shell'
complete -c cbi-hunt -l oracle-timeout -x -d 'how long the oracle may take for a run'
complete -c cbi-hunt -l hangs -x -a 'neither fail' -d 'what a run counts as that goes back too often'
complete -c cbi-hunt -l status -x -a 'ignore fail' -d 'whether a status other than 0 has failed'
complete -c cbi-hunt -l since -r -d 'the old version, a file or a folder'
complete -c cbi-hunt -l changed -x -a 'ignore fail' -d 'whether an output other than the old one has failed'
complete -c cbi-hunt -l minimize -d 'makes the smallest failing input smaller'
complete -c cbi-hunt -l mutate -x -d 'how many inputs more are made'
complete -c cbi-hunt -l neighbours -x -d 'how many inputs are made near the smallest failing one'
complete -c cbi-hunt -l rate -x -a '1 2 5 10 20 50 100 1000' -d 'one visit in so many is looked at'
complete -c cbi-hunt -l runs -x -d 'how many runs'
complete -c cbi-hunt -l seed -x -d 'which countdowns the runs have'
complete -c cbi-hunt -l turns -x -d 'how often a run may go back'
complete -c cbi-hunt -l schemes -x -a 'branches returns pairs branches,returns branches,returns,pairs' -d 'which sites are looked at'
complete -c cbi-hunt -l jobs -x -d 'how many runs go on at a time'
complete -c cbi-hunt -l policy -x -a 'all failing relabel' -d 'what is done with the runs that a row explains'
complete -c cbi-hunt -l keep -r -d 'keeps everything here, and goes on with it'
complete -c cbi-hunt -l all -d 'shows weak rows too'
complete -c cbi-hunt -l html -r -d 'writes the page as well'
complete -c cbi-hunt -l farm -r -d 'hosts for GNU parallel, or slurm'
complete -c cbi-hunt -l parts -x -d 'how many programs share the sites'
complete -c cbi-hunt -l cbi -r -d 'the executable'

complete -c cbi-show -l hunt -r -d 'the folder that a hunt kept'
complete -c cbi-show -l source -r -d 'the C text'
complete -c cbi-show -l lines -r -d 'whose the lines of a ported text are'
complete -c cbi-show -l program -r -d 'the program file'
complete -c cbi-show -l cards -r -d 'the affinity cards'
complete -c cbi-show -l pairs -r -d 'the best pair'
complete -c cbi-show -l reports -r -d 'the collection'
complete -c cbi-show -l cbi -r -d 'the executable'
complete -c cbi-show -l format -x -a 'text html sarif quickfix' -d 'what is written'
complete -c cbi-show -l all -d 'shows weak rows too'
complete -c cbi-show -l output -r -d 'the file to write'
complete -c cbi-show -l sites -r -d 'says what sites are'

complete -c cbi-explain -l program -r -d 'the program of a report'
complete -c cbi-explain -l table -d 'what the dialect leaves out'
complete -c cbi-explain -l all -d 'names all places of a text that the dialect leaves out'

complete -c cbi-port -s I -r -d 'a folder of headers'
complete -c cbi-port -s D -x -d 'a name that is defined'
complete -c cbi-port -s U -x -d 'a name that is not'
complete -c cbi-port -o include -r -d 'a file that is read first'
complete -c cbi-port -s o -r -d 'where the text goes'
complete -c cbi-port -l args -x -a first-line -d 'the arguments of main'
complete -c cbi-port -l stderr -d 'what goes to stderr goes to out'
complete -c cbi-port -l wrap -d 'signed integers wrap where they overflow'
complete -c cbi-port -l values -x -a 'none some all' -d 'of how many members, elements and dereferences pairs see the values'
complete -c cbi-port -x -l cflags -d 'the flags of your own build'
complete -c cbi-port -l file -x -d 'a file that the text may open: NAME=PATH'
complete -c cbi-port -l memory -x -a 'auto cells bytes flat' -d 'how memory is kept'
complete -c cbi-port -l quiet -d 'tells nothing but refusals'
complete -c cbi-port -l dump-typed -d 'writes the typed tree in place of the text'
complete -c cbi-port -l check -d 'compares the text with the files as gcc builds them'
complete -c cbi-port -l inputs -r -d 'the inputs of --check'
complete -c cbi-port -l tool -r -d 'the executable of --check'
complete -c cbi-port -l turns -x -d 'how often a run of --check may go back'

for script in cbi-hunt cbi-show cbi-explain cbi-port
    complete -c $script -l version -d 'says which version this is'
    complete -c $script -l help -d 'says how it is used'
end
