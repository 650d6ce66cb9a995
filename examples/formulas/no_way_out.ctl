AG !exit
