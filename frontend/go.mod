module zesthull

go 1.19
