module driver

go 1.19

require hags v0.0.0

replace hags => ../../../clients/go
