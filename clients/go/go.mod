module hags

go 1.19
