module driver

go 1.19

require storeclient v0.0.0

replace storeclient => ../../../../clients/go
