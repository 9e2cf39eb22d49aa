#!/bin/sh
# Packs the package if there is no npm: `npm.sh pack`.
exec tar -czf ../minisign-proved.tgz --transform 's,^,package/,' LICENSE README.md package.json *.js *.ts
