module zaxmonth

go 1.19
