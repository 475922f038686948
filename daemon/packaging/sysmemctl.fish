# Completes the command line of sysmemctl in fish.
complete -c sysmemctl -f
complete -c sysmemctl -n __fish_is_first_token -a 'status cores clients nodes buffers waits transcript'
complete -c sysmemctl -l socket -r -F -d 'Where the daemon listens'
complete -c sysmemctl -l json -d 'One JSON object'
complete -c sysmemctl -l follow -d 'A transcript goes on until the daemon ends'
complete -c sysmemctl -l help -d 'Describes the options'
complete -c sysmemctl -l version -d 'Names the version'
