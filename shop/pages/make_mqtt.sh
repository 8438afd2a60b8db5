#!/bin/sh
# Makes mqtt.js, the library by which both pages speak to the broker, of Debian's node-mqtt:
#   make_mqtt.sh FOLDER
# FOLDER is where the pages lie, and gets mqtt.js. It wants Debian's packages esbuild, node-mqtt, node-buffer,
# node-process, node-url and node-readable-stream. Debian has no browser build of node-mqtt; this makes one.
set -eu
folder=${1:?"which folder?"}
for name in mqtt buffer process url readable-stream; do
    [ -d "/usr/share/nodejs/$name" ] || { echo "make_mqtt: there is no /usr/share/nodejs/$name (node-$name)" >&2; exit 1; }
done
work=$(mktemp -d)
trap 'rm -rf "$work"' EXIT
echo 'globalThis.mqtt = require("/usr/share/nodejs/mqtt/lib/connect/index.js");' >"$work/entry.js"
# a browser has a WebSocket of its own, and no files and sockets
echo 'module.exports = {};' >"$work/nothing.js"
echo 'import { Buffer } from "buffer/"; import process from "process/browser.js"; export { Buffer, process };' >"$work/shim.js"
cd "$work"
NODE_PATH=/usr/share/nodejs esbuild entry.js --bundle --minify --platform=browser --format=iife --target=es2020 \
    --define:global=globalThis --inject:./shim.js --alias:stream=readable-stream --alias:ws=./nothing.js \
    --alias:net=./nothing.js --alias:tls=./nothing.js --alias:fs=./nothing.js --log-level=error --outfile=mqtt.js
cd - >/dev/null
install -m 644 "$work/mqtt.js" "$folder/mqtt.js"
echo "make_mqtt: $folder/mqtt.js, $(wc -c <"$folder/mqtt.js") bytes, 1 library"
