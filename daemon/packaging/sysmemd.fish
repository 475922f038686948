# Completes the command line of sysmemd in fish.
complete -c sysmemd -f
complete -c sysmemd -l socket -r -F -d 'Where it listens'
complete -c sysmemd -l mode -x -d 'Access rights of the socket'
complete -c sysmemd -l pages -x -d "Pages of each uid's pool"
complete -c sysmemd -l nodes -x -d 'Kept nodes of each uid'
complete -c sysmemd -l collections -x -d 'Kept collections of each uid'
complete -c sysmemd -l trackers -x -d 'Waiting trackers of each uid'
complete -c sysmemd -l handles -x -d 'Open handles of one buffer and strength'
complete -c sysmemd -l connections -x -d 'Connections of each uid'
complete -c sysmemd -l descriptors -x -d 'Ends, leases, trackers and buffers of each uid'
complete -c sysmemd -l uids -x -d 'Uids at one time'
complete -c sysmemd -l share -x -d 'Microseconds of each uid in a round of requests'
complete -c sysmemd -l reserve -d 'Takes the memory of a buffer before it is handed out'
complete -c sysmemd -l transcripts -x -a '(__fish_complete_directories)' -d "Writes the events of each uid's core there"
complete -c sysmemd -l allow-old-kernel -d 'Starts before Linux 6.16'
complete -c sysmemd -l help -d 'Describes the options'
complete -c sysmemd -l version -d 'Names the version'
