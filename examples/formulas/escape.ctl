EF exit
