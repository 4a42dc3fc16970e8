# Completion of palm and palm-script for fish.

complete -c palm -f
complete -c palm -n __fish_use_subcommand -a run -d 'answer the lines of a session'
complete -c palm -n __fish_use_subcommand -a check -d 'check a certificate'
complete -c palm -n __fish_use_subcommand -a proof -d 'check a proof that there is no solution'
complete -c palm -n __fish_use_subcommand -a gen -d 'run the puzzle of so many queens'
complete -c palm -n '__fish_seen_subcommand_from gen; and test (count (commandline -opc)) -eq 2' -a '(seq 16)'

complete -c palm-script -s v -d 'print each line before its reply'
complete -c palm-script -f -a '(for file in (commandline -ct)*.palm; echo $file; end; __fish_complete_directories)'
