#!/usr/bin/env bash
# Tries the package for npm as it is installed: that it names no platform, its exports, its
# middleware, and what its page shows. npm.sh says what it takes and needs.
cd "$(dirname "$0")/../../.." || exit 1
. tests/lib/tap.sh
. bindings/browser/tests/npm.sh

# (the names of processors and systems that npm knows, and of what is built for one)
names_no_platform() {
    node -e 'const it = require(process.argv[1]);
for (const name of ["os", "cpu", "libc", "dependencies", "optionalDependencies", "scripts"])
  if (name in it) throw new Error(name);' "$installed/package.json" &&
        ! find "$installed" -name '*.node' -o -name '*.so*' | grep . &&
        ! grep -nE "process\.(platform|arch)|x86|win32|darwin" "$installed"/*.{mjs,d.ts,json}
}

has_exports() { # each leads to a file
    node -e 'const { existsSync } = require("node:fs"), { dirname, join } = require("node:path");
const paths = (it) => typeof it === "string" ? [it] : Object.values(it).flatMap(paths);
const given = require(process.argv[1]);
const files = paths([given.exports, given.main, given.types, given.bin]);
for (const it of files) if (!existsSync(join(dirname(process.argv[1]), it))) throw new Error(it);
console.log(files.length + " files");' "$installed/package.json"
}

shows() { # with the site that the page's first program reads
    "$lexicat" new --site paris |
        "$lexicat" put --now 1 --id greeting --lang fr Bonjour > "$app/site.json" &&
        (cd "$app" && node shown.mjs)
}

# (the folder is where Debian installs packages of Node)
modules=${NODE_PATH:-/usr/share/nodejs}
serves() {
    ln -s "$modules/express" "$app/node_modules/express" && (cd "$app" && NODE_PATH=$modules node served.mjs)
}

is_installed
check 'it names no platform' names_no_platform
check 'its exports are there' has_exports
check 'middleware' node "$app/express.mjs"
if [ -x "$lexicat" ]; then
    check 'what its page shows' shows
else
    lacks 'what its page shows' "${lexicat#"$PWD/"}"
fi
if [ -e "$modules/express" ]; then
    check 'the server of express that its page shows' serves
else
    lacks 'the server of express that its page shows' "express in $modules"
fi
end
