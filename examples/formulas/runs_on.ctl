!AF exit
