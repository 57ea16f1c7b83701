# Completions of station_check for fish.

function __station_check_faults
    station_check explain 2>/dev/null | string replace --regex '  +' \t
end

complete -c station_check -f

complete -c station_check -n __fish_use_subcommand -s V -l version -d 'Print the version'
complete -c station_check -s h -l help -d 'Print help'

# The commands, made by tools/commands.py.
complete -c station_check -n __fish_use_subcommand -a compare -d "Compares a table of directions with a field file, whatever program printed it"
complete -c station_check -n __fish_use_subcommand -a differences -d "Prints by how much a table of directions differs, target by target"
complete -c station_check -n __fish_use_subcommand -a directions -d "Prints the least-squares directions of a station as a table"
complete -c station_check -n __fish_use_subcommand -a report -d "Prints the protocol of the sets of a station, with readings and residuals"
complete -c station_check -n __fish_use_subcommand -a check -d "Checks a sheet against a field file"
complete -c station_check -n __fish_use_subcommand -a means -d "Prints the adjusted sheet of a station whose sets are complete"
complete -c station_check -n __fish_use_subcommand -a mark -d "Prints a copy of a job without codes, in which codes begin and end the sets"
complete -c station_check -n __fish_use_subcommand -a change -d "Prints a copy of a field file in which just the stated lines are left out or renamed"
complete -c station_check -n __fish_use_subcommand -a list -d "Lists the stations of a field file and their two-face directions"
complete -c station_check -n __fish_use_subcommand -a words -d "Prints the words of a field file"
complete -c station_check -n __fish_use_subcommand -a explain -d "Explains a fault that a refusal names"
complete -c station_check -n '__fish_seen_subcommand_from compare differences directions report check means mark change list words' -F
complete -c station_check -n '__fish_seen_subcommand_from compare differences directions report' -l all -d "Answer all stations of the file, in its order, in the place of one: of each what its own command prints"
complete -c station_check -n '__fish_seen_subcommand_from compare differences report' -l degrees -d "Read the directions of the table in degrees, and not in gon: with minutes and seconds, as 59-04-09.18, or with decimals, as 59.069217"
complete -c station_check -n '__fish_seen_subcommand_from compare differences report' -l dmmss -d "Read the directions of the table in degrees with two digits of minutes and two of seconds after the point: 59.040918 is 59-04-09.18"
complete -c station_check -n '__fish_seen_subcommand_from compare differences report' -l columns -x -d "Read these columns of the table: that of the targets and that of their directions, by their numbers from 1, as 2,6, or by their titles in the first row that has them, as Target,Hz"
complete -c station_check -n '__fish_seen_subcommand_from compare differences directions report check means list' -l two-c -x -d "The limit of 2c, as 0.3mgon: to 10000mgon, by 0.01; or in units of 0.01 mgon: 0 to 1000000"
complete -c station_check -n '__fish_seen_subcommand_from compare differences directions report check means list' -l two-i -x -d "The limit of 2i, as 0.3mgon: to 10000mgon, by 0.01; or in units of 0.01 mgon: 0 to 1000000"
complete -c station_check -n '__fish_seen_subcommand_from compare differences directions report check' -l residual -x -d "The limit of residuals, as 0.3mgon: to 10mgon, by 0.005; or in half units of 0.005 mgon: 0 to 2000"
complete -c station_check -n '__fish_seen_subcommand_from compare report' -l within -x -d "How near the directions must be, as 0.05mgon: to 1000mgon, by 0.001; or in units of 0.001 mgon: 0 to 1000000"
complete -c station_check -n '__fish_seen_subcommand_from compare report check' -l sha256 -d "Print the SHA-256 digest of each file after the answer"
complete -c station_check -n '__fish_seen_subcommand_from differences directions report list' -l decimal-comma -d "Write semicolons between cells and commas in numbers, for a spreadsheet that is set to German or French: there -0.134 is read as -134. 'list' and 'report' need '--csv'"
complete -c station_check -n '__fish_seen_subcommand_from differences' -l json -d "Print each target as a JSON object on a line of its own, and no titles"
complete -c station_check -n '__fish_seen_subcommand_from directions' -l decimals -x -d "How many decimals of a gon a direction is written with: 1 to 8"
complete -c station_check -n '__fish_seen_subcommand_from report' -l table -r -F -d "A table of directions, as 'compare' reads it, which stands beside the adjusted ones with the differences and whether it agrees"
complete -c station_check -n '__fish_seen_subcommand_from report' -l language -x -d "Write the report in English (en), in German (de) or in French (fr)"
complete -c station_check -n '__fish_seen_subcommand_from report' -l date -x -d "Print this date in the head of the report, as it is typed"
complete -c station_check -n '__fish_seen_subcommand_from report' -l note -x -d "Print a line in the head of the report: KEY, and in the column of the head TEXT, as it is typed"
complete -c station_check -n '__fish_seen_subcommand_from report' -l signature -d "End the report with lines for a place, a date and a signature"
complete -c station_check -n '__fish_seen_subcommand_from report' -l pages -d "Divide the report into pages of 60 lines at most"
complete -c station_check -n '__fish_seen_subcommand_from report list' -l csv -d "Print rows for other programs, as CSV with a row of titles: directions in gon with 6 decimals, face differences in mgon with 2, residuals in mgon with 3"
complete -c station_check -n '__fish_seen_subcommand_from mark' -l station -x -d "The name of the station, of a file without set-up lines: 1 to 16 characters of ASCII, from the blank to '~'"
complete -c station_check -n '__fish_seen_subcommand_from mark' -l same-set-up -d "Go on with a station at a set-up line that has its name again, as where a height or a coordinate was mended at the same set-up"
complete -c station_check -n '__fish_seen_subcommand_from mark' -l again -d "Take a name that comes again for another set-up: the second station at P7 is called P7-2, the third P7-3"
complete -c station_check -n '__fish_seen_subcommand_from mark' -l station-code -x -d "Begin a station at each code block N with a word 42, which names the station"
complete -c station_check -n '__fish_seen_subcommand_from mark' -l sets -x -d "How many sets were read to the end, 1 to 40: N at each station with sets, or NAME=N at the station of this name"
complete -c station_check -n '__fish_seen_subcommand_from mark' -l targets -x -d "How many targets these sets have, 1 to 100: N at each station with sets, or NAME=N at the station of this name"
complete -c station_check -n '__fish_seen_subcommand_from mark' -l others -d "Leave the readings of stations that are not recognized outside of the sets, and mark the others"
complete -c station_check -n '__fish_seen_subcommand_from change' -l leave-out -x -d "Leave out line N with what ends it"
complete -c station_check -n '__fish_seen_subcommand_from change' -l rename -x -d "Give the point of line N this name, filled with zeros from the left: at most 8 characters in a line of GSI-8, 16 in one of GSI-16, and no zero at its beginning"
complete -c station_check -n '__fish_seen_subcommand_from help' -a 'compare differences directions report check means mark change list words explain'
# The end of the commands.

complete -c station_check -n __fish_use_subcommand -a help -d 'Prints the help of a command'
complete -c station_check -n '__fish_seen_subcommand_from explain' -a '(__station_check_faults)'
