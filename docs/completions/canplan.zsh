#compdef canplan
# Made by tools/completions.py of the help of canplan. Put it as _canplan into a folder of fpath.

_canplan() {
    local sub=$words[2]
    if ((CURRENT == 2)); then
        local -a subs
        subs=(
            'test:Runs the response-time test on a table of streams'
            'plan:Gives the slowest rate and the identifiers that pass, and a DCF file for each device'
            'room:Says how far each number of the tables can go with the identifiers of the plan'
            'check:Checks of each refusal that no choice of identifiers passes at its rate'
            'boot:Boots the planned devices\: those at an adapter, or over a simulated bus, each frame delivered in its turn'
            'verify:Asks the devices at an adapter whether they are as planned, also where they run, and writes nothing to them'
            'nmt:Sends an NMT command to a node at an adapter, or to all\: no node confirms one'
            'scan:Asks each node at an adapter what its device is, and writes nothing to any'
            'read:Reads the value of an object of a node at an adapter'
            'write:Writes a value to an object of a node at an adapter'
            'run:Runs the plan on a simulated bus, and writes the trace'
            'judge:Judges a trace of the bus by the plan of a network'
            'report:Writes a page that shows the plan\: why no slower rate, the load, the PDOs and the settings'
            'export:Gives the plan of a network to other tools'
            'tidy:Makes of an EDS file as makers ship it one that plan reads, and tells each change'
            'init:Makes tables to start from of the EDS files of a folder, for each file or for each node on a bus, and tells each guess'
            'diff:Says which devices of a machine have to be set again for another plan, and to which values'
            'watch:Reads a log of a real bus, or listens to one, and says whether it keeps to the tables'
            'explain:Says what the rule of a refusal is, what is usually behind it, and what is right'
            'help:Print this message or the help of the given subcommand(s)'
        )
        _describe subcommand subs
        _arguments '(-h --help)'{-h,--help}'[Print help]' '(-V --version)'{-V,--version}'[Print version]'
        return
    fi
    shift words
    ((CURRENT--))
    case $sub in
    test)
        _arguments -S \
            '--rate=[The bit rate in kbit/s]:rate:(10 20 50 125 250 500 800 1000)' \
            '--strict[Ends with status 3 where a stream does not pass]' \
            '--json[Answers by one document in JSON on standard output, also of a fault]' \
            '--explain[Says of a fault in words where it stands, what is wanted and what is usually behind it]' \
            '(-h --help)'{-h,--help}'[Print help]' \
            '1:FILE:_files'
        ;;
    plan)
        _arguments -S \
            '--setup=[The table of settings, which the devices get besides\: row,node,object,value]:FILE:_files' \
            '--rates=[The rates in kbit/s that the plan may have, as 250,500; all where it is left out]:LIST:_values -s , LIST 10 20 50 125 250 500 800 1000' \
            '--margin[Takes, at the same rate, the identifiers with the greatest least margin of all deadlines]' \
            '--as-is[Tests the identifiers that the devices have by their EDS files\: none is chosen, and nothing is written]' \
            '--explain[Says of a fault in words where it stands, what is wanted and what is usually behind it]' \
            '--json[Answers by one document in JSON on standard output, also of a fault]' \
            '--strict[Ends with status 3 where something is worth a look before one relies on the plan, as --explain tells it]' \
            '(-h --help)'{-h,--help}'[Print help]' \
            '1:NODES:_files' \
            '2:PDOS:_files' \
            '3::OUT:_files'
        ;;
    room)
        _arguments -S \
            '--setup=[The table of settings, which the devices get besides\: row,node,object,value]:FILE:_files' \
            '--rates=[The rates in kbit/s that the plan may have, as 250,500; all where it is left out]:LIST:_values -s , LIST 10 20 50 125 250 500 800 1000' \
            '--margin[Takes, at the same rate, the identifiers with the greatest least margin of all deadlines]' \
            '--explain[Says of a fault in words where it stands, what is wanted and what is usually behind it]' \
            '--json[Answers by one document in JSON on standard output, also of a fault]' \
            '--anew=[Says of this PDO alone how far its numbers can go where the identifiers of all PDOs are chosen anew]:NODE.TPDO: ' \
            '(-h --help)'{-h,--help}'[Print help]' \
            '1:NODES:_files' \
            '2:PDOS:_files'
        ;;
    check)
        _arguments -S \
            '--setup=[The table of settings, which the devices get besides\: row,node,object,value]:FILE:_files' \
            '--rates=[The rates in kbit/s that the plan may have, as 250,500; all where it is left out]:LIST:_values -s , LIST 10 20 50 125 250 500 800 1000' \
            '--margin[Takes, at the same rate, the identifiers with the greatest least margin of all deadlines]' \
            '--explain[Says of a fault in words where it stands, what is wanted and what is usually behind it]' \
            '--json[Answers by one document in JSON on standard output, also of a fault]' \
            '--strict[Ends with status 4 where a rate that the plan refuses has no refusal in the file]' \
            '(-h --help)'{-h,--help}'[Print help]' \
            '1:NODES:_files' \
            '2:PDOS:_files' \
            '3:REFUSALS:_files'
        ;;
    boot)
        _arguments -S \
            '--setup=[The table of settings, which the devices get besides\: row,node,object,value]:FILE:_files' \
            '--rates=[The rates in kbit/s that the plan may have, as 250,500; all where it is left out]:LIST:_values -s , LIST 10 20 50 125 250 500 800 1000' \
            '--margin[Takes, at the same rate, the identifiers with the greatest least margin of all deadlines]' \
            '--explain[Says of a fault in words where it stands, what is wanted and what is usually behind it]' \
            '--json[Answers by one document in JSON on standard output, also of a fault]' \
            '--seed=[The number that draws the turns of the simulated bus]:seed: ' \
            '--port=[The serial device of a CAN adapter that speaks slcan\: the devices there are booted; - is standard input and output]:PORT:_files' \
            '--take-over[Resets the nodes also where one is heard to run; without it such a machine is left alone]' \
            '--no-identity[Does not ask the devices for their type, vendor and product; without it nothing is written to them where one is another than its EDS file says]' \
            '--only=[The node that is reset, set and started alone; the others may run]:only: ' \
            '--no-start[Leaves the nodes in pre-operational, for another manager to start them]' \
            '--boot-limit=[The seconds after a reset in which a node has to boot up, before it is silent; 5 where it is left out]:boot-limit: ' \
            '--restore[Has each device go back to the values that it left the factory with first (1011h sub 1), where its EDS file has that]' \
            '--store[Has each device store its settings (1010h sub 1), where its EDS file has that]' \
            '--watch=[The seconds after the start for which heartbeats are awaited, 0 for none; one and a half of the longest heartbeat time where it is left out]:watch: ' \
            '--limit=[The seconds after which the port is given up]:limit: ' \
            '--report=[Writes a page that shows how the boot ended, and what each node was set to]:OUT:_files' \
            '--title=[The name of the machine at the page'\''s head]:TITLE: ' \
            '--date=[The date at the page'\''s head]:DATE: ' \
            '(-h --help)'{-h,--help}'[Print help]' \
            '1:NODES:_files' \
            '2:PDOS:_files'
        ;;
    verify)
        _arguments -S \
            '--setup=[The table of settings, which the devices get besides\: row,node,object,value]:FILE:_files' \
            '--rates=[The rates in kbit/s that the plan may have, as 250,500; all where it is left out]:LIST:_values -s , LIST 10 20 50 125 250 500 800 1000' \
            '--margin[Takes, at the same rate, the identifiers with the greatest least margin of all deadlines]' \
            '--explain[Says of a fault in words where it stands, what is wanted and what is usually behind it]' \
            '--json[Answers by one document in JSON on standard output, also of a fault]' \
            '--port=[The serial device of a CAN adapter that speaks slcan; - is standard input and output]:PORT:_files' \
            '--only=[The node that is asked alone]:only: ' \
            '--gently=[The milliseconds in which nothing is sent before each question; 0 where it is left out]:gently: ' \
            '--limit=[The seconds after which the port is given up]:limit: ' \
            '(-h --help)'{-h,--help}'[Print help]' \
            '1:NODES:_files' \
            '2:PDOS:_files'
        ;;
    nmt)
        _arguments -S \
            '--all[Every node gets it]' \
            '--port=[The serial device of a CAN adapter that speaks slcan; - is standard input and output]:PORT:_files' \
            '--rate=[The bus'\''s rate in kbit/s]:rate:(10 20 50 125 250 500 800 1000)' \
            '--limit=[The seconds after which the port is given up]:limit: ' \
            '--explain[Says of a fault in words where it stands, what is wanted and what is usually behind it]' \
            '(-h --help)'{-h,--help}'[Print help]' \
            '1:COMMAND:(start stop preop reset reset-communication)' \
            '2::NODE: '
        ;;
    scan)
        _arguments -S \
            '--port=[The serial device of a CAN adapter that speaks slcan; - is standard input and output]:PORT:_files' \
            '--rate=[The bus'\''s rate in kbit/s]:rate:(10 20 50 125 250 500 800 1000)' \
            '--up-to=[The greatest node that is asked; 127 if it is left out]:up-to: ' \
            '--gently=[The milliseconds in which nothing is sent before each question; 0 if it is left out]:gently: ' \
            '--eds=[A folder with EDS files\: those that fit a device are named]:FOLDER:_files -/' \
            '--limit=[The seconds after which the port is given up]:limit: ' \
            '--explain[Says of a fault in words where it stands, what is wanted and what is usually behind it]' \
            '--json[Answers by one document in JSON on standard output, also of a fault]' \
            '(-h --help)'{-h,--help}'[Print help]'
        ;;
    read)
        _arguments -S \
            '--port=[The serial device of a CAN adapter that speaks slcan; - is standard input and output]:PORT:_files' \
            '--rate=[The bus'\''s rate in kbit/s]:rate:(10 20 50 125 250 500 800 1000)' \
            '--type=[The type of the value]:type:(BOOLEAN INTEGER8 INTEGER16 INTEGER32 INTEGER64 UNSIGNED8 UNSIGNED16 UNSIGNED32 UNSIGNED64 REAL32 REAL64 VISIBLE_STRING OCTET_STRING DOMAIN)' \
            '--eds=[The device'\''s EDS file, which names the type of the value]:FILE:_files' \
            '--limit=[The seconds after which the port is given up]:limit: ' \
            '--explain[Says of a fault in words where it stands, what is wanted and what is usually behind it]' \
            '--json[Answers by one document in JSON on standard output, also of a fault]' \
            '(-h --help)'{-h,--help}'[Print help]' \
            '1:NODE: ' \
            '2:INDEX: ' \
            '3:SUB: '
        ;;
    write)
        _arguments -S \
            '--port=[The serial device of a CAN adapter that speaks slcan; - is standard input and output]:PORT:_files' \
            '--rate=[The bus'\''s rate in kbit/s]:rate:(10 20 50 125 250 500 800 1000)' \
            '--type=[The type of the value]:type:(BOOLEAN INTEGER8 INTEGER16 INTEGER32 INTEGER64 UNSIGNED8 UNSIGNED16 UNSIGNED32 UNSIGNED64 REAL32 REAL64 VISIBLE_STRING OCTET_STRING DOMAIN)' \
            '--eds=[The device'\''s EDS file, which names the type of the value]:FILE:_files' \
            '--limit=[The seconds after which the port is given up]:limit: ' \
            '--explain[Says of a fault in words where it stands, what is wanted and what is usually behind it]' \
            '--json[Answers by one document in JSON on standard output, also of a fault]' \
            '(-h --help)'{-h,--help}'[Print help]' \
            '1:NODE: ' \
            '2:INDEX: ' \
            '3:SUB: ' \
            '4:VALUE: '
        ;;
    run)
        _arguments -S \
            '--setup=[The table of settings, which the devices get besides\: row,node,object,value]:FILE:_files' \
            '--rates=[The rates in kbit/s that the plan may have, as 250,500; all where it is left out]:LIST:_values -s , LIST 10 20 50 125 250 500 800 1000' \
            '--margin[Takes, at the same rate, the identifiers with the greatest least margin of all deadlines]' \
            '--explain[Says of a fault in words where it stands, what is wanted and what is usually behind it]' \
            '--seed=[The number that draws events, delays, lengths and late joiners]:seed: ' \
            '--until=[The end of the run in microseconds, at most 1000000000]:until: ' \
            '(-h --help)'{-h,--help}'[Print help]' \
            '1:NODES:_files' \
            '2:PDOS:_files' \
            '3:TRACE:_files'
        ;;
    judge)
        _arguments -S \
            '--setup=[The table of settings, which the devices get besides\: row,node,object,value]:FILE:_files' \
            '--rates=[The rates in kbit/s that the plan may have, as 250,500; all where it is left out]:LIST:_values -s , LIST 10 20 50 125 250 500 800 1000' \
            '--margin[Takes, at the same rate, the identifiers with the greatest least margin of all deadlines]' \
            '--explain[Says of a fault in words where it stands, what is wanted and what is usually behind it]' \
            '--json[Answers by one document in JSON on standard output, also of a fault]' \
            '(-h --help)'{-h,--help}'[Print help]' \
            '1:NODES:_files' \
            '2:PDOS:_files' \
            '3:TRACE:_files'
        ;;
    report)
        _arguments -S \
            '--setup=[The table of settings, which the devices get besides\: row,node,object,value]:FILE:_files' \
            '--rates=[The rates in kbit/s that the plan may have, as 250,500; all where it is left out]:LIST:_values -s , LIST 10 20 50 125 250 500 800 1000' \
            '--margin[Takes, at the same rate, the identifiers with the greatest least margin of all deadlines]' \
            '--explain[Says of a fault in words where it stands, what is wanted and what is usually behind it]' \
            '--trace=[A trace of the bus, as judge takes it\: the page shows the bus over time, too]:TRACE:_files' \
            '--log=[A log of the machine'\''s bus, as watch takes it\: the page shows what it shows, too]:LOG:_files' \
            '--title=[The name of the machine at the page'\''s head]:TITLE: ' \
            '--date=[The date at the page'\''s head]:DATE: ' \
            '--error=[By how much distances of two stamps of the log are wrong at most; 1000 where it is left out]:US: ' \
            '--drift=[By how many parts in a million its clock is wrong at most; 200 where it is left out]:PPM: ' \
            '--channel=[The channel whose frames are taken; that of the first frame where it is left out]:NAME: ' \
            '--delta[Each stamp of a log in columns is the distance from the line before, as candump -td writes it]' \
            '(-h --help)'{-h,--help}'[Print help]' \
            '1:NODES:_files' \
            '2:PDOS:_files' \
            '3:OUT:_files'
        ;;
    export)
        _arguments -S \
            '--manager=[The node that is the manager, which is no slave in master.csv; without it the first one that makes SYNC by its EDS file]:manager: ' \
            '--margin[Takes, at the same rate, the identifiers with the greatest least margin of all deadlines]' \
            '--setup=[The table of settings, which the devices get besides\: row,node,object,value]:FILE:_files' \
            '--rates=[The rates in kbit/s that the plan may have, as 250,500; all where it is left out]:LIST:_values -s , LIST 10 20 50 125 250 500 800 1000' \
            '--explain[Says of a fault in words where it stands, what is wanted and what is usually behind it]' \
            '(-h --help)'{-h,--help}'[Print help]' \
            '1:FORMAT:(dbc cdcf)' \
            '2:NODES:_files' \
            '3:PDOS:_files' \
            '4:OUT:_files'
        ;;
    tidy)
        _arguments -S \
            '--check[Tells the changes alone\: status 3 where there are some]' \
            '--explain[Says of a fault in words where it stands, what is wanted and what is usually behind it]' \
            '--octal[Digits with a 0 before them are octal, as CiA 306 says]' \
            '--decimal[They are decimal, as people write them]' \
            '--access=[The access of objects that state none]:access:(ro wo rw rwr rww const)' \
            '--unlisted=[Whether sections that no list names are listed, or left as they are]:unlisted:(add leave)' \
            '--rates=[The rates in kbit/s of a device that states none, as 125,250]:LIST:_values -s , LIST 10 20 50 125 250 500 800 1000' \
            '(-h --help)'{-h,--help}'[Print help]' \
            '1:IN:_files' \
            '2::OUT:_files'
        ;;
    init)
        _arguments -S \
            '--port=[The serial device of a CAN adapter that speaks slcan\: the devices are the nodes that answer there; - is standard input and output]:PORT:_files' \
            '--rate=[The bus'\''s rate in kbit/s]:rate:(10 20 50 125 250 500 800 1000)' \
            '--up-to=[The greatest node that is asked; 127 if it is left out]:up-to: ' \
            '--gently=[The milliseconds in which nothing is sent before each question; 0 if it is left out]:gently: ' \
            '--limit=[The seconds after which the port is given up]:limit: ' \
            '--explain[Says of a fault in words where it stands, what is wanted and what is usually behind it]' \
            '(-h --help)'{-h,--help}'[Print help]' \
            '1:FOLDER:_files -/' \
            '2:OUT:_files'
        ;;
    diff)
        _arguments -S \
            '--explain[Says of a fault in words where it stands, what is wanted and what is usually behind it]' \
            '--json[Answers by one document in JSON on standard output, also of a fault]' \
            '(-h --help)'{-h,--help}'[Print help]' \
            '1:OLD:_files -/' \
            '2:NEW:_files -/'
        ;;
    watch)
        _arguments -S \
            '--setup=[The table of settings, which the devices get besides\: row,node,object,value]:FILE:_files' \
            '--rates=[The rates in kbit/s that the plan may have, as 250,500; all where it is left out]:LIST:_values -s , LIST 10 20 50 125 250 500 800 1000' \
            '--margin[Takes, at the same rate, the identifiers with the greatest least margin of all deadlines]' \
            '--explain[Says of a fault in words where it stands, what is wanted and what is usually behind it]' \
            '--json[Answers by one document in JSON on standard output, also of a fault]' \
            '--port=[The serial device of a CAN adapter that speaks slcan\: its bus is watched as frames come, and none is sent; - is standard input and output]:PORT:_files' \
            '--for=[The seconds after which no more is read, by this computer'\''s clock; the log or the port is read to its end where it is left out]:for: ' \
            '--error=[By how much distances of two stamps of the log are wrong at most; 1000 where it is left out, and 2000 at a port]:US: ' \
            '--drift=[By how many parts in a million its clock is wrong at most; 200 where it is left out]:PPM: ' \
            '--channel=[The channel whose frames are taken; that of the first frame where it is left out]:NAME: ' \
            '--delta[Each stamp of a log in columns is the distance from the line before, as candump -td writes it]' \
            '--csv=[Writes a table of what was seen of each stream\: id,frames,period,least,mean,greatest,load]:FILE:_files' \
            '(-h --help)'{-h,--help}'[Print help]' \
            '1:NODES:_files' \
            '2:PDOS:_files' \
            '3::LOG:_files'
        ;;
    explain)
        _arguments -S \
            '--all[All rules and warnings, as a page]' \
            '(-h --help)'{-h,--help}'[Print help]' \
            '1::NUMBER: '
        ;;
    help) _arguments '1:subcommand:(test plan room check boot verify nmt scan read write run judge report export tidy init diff watch explain)' ;;
    esac
}

_canplan "$@"
