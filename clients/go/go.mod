module storeclient

go 1.19
