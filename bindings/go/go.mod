module proved/minisign

go 1.19
