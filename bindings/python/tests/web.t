#!/usr/bin/env bash
# Tries the middleware of the Python package (silkwaram.web and silkwaram.django) by real requests
# over loopback: to applications under wsgiref with its validator, Flask, uvicorn, Starlette, and
# Django under WSGI and ASGI; by the examples of the package's page, as they are there, with
# thousands of headers; and beside Django's own middleware. package.t runs the tests of the package.
#
# usage: bindings/python/tests/web.t [KIND..]    all kinds, or these: functions of web/serve.py,
#            readme_flask, readme_starlette, beside_django
# Takes build/lib/libsilkwaram.so, which `make library` builds, or the file that SILKWARAM_LIBRARY
# names. Each kind is tried with the first of python3 and /usr/bin/python3 that has the modules it
# wants, and skipped where neither has.
cd "$(dirname "$0")/../../.." || exit 1
. tests/lib/tap.sh
export SILKWARAM_LIBRARY=${SILKWARAM_LIBRARY:-$PWD/build/lib/libsilkwaram.so}
export PYTHONPATH=$PWD/bindings/python/src
own=bindings/python/tests/web

wanted_by() { # the modules that a kind wants, beside those of the standard library
    case $1 in
        flask | readme_flask) echo flask ;;
        readme_starlette) echo starlette ;;
        beside_django) echo django ;;
        uvicorn) echo uvicorn ;;
        starlette) echo starlette uvicorn ;;
        django_wsgi) echo django ;;
        django_asgi) echo django uvicorn ;;
    esac
}

first_lacked() { # a python and modules: the first that it lacks, or itself where it is not there
    local python=$1 module
    "$python" -c '' 2> /dev/null || { echo python3; return; }
    for module in "${@:2}"; do
        "$python" -c "import $module" 2> /dev/null || { echo "$module for python3"; return; }
    done
}

program_of() { # a kind: what python is to run
    case $1 in
        readme_*) echo "$own/readme.py ${1#readme_}" ;;
        beside_django) echo "$own/beside_django.py" ;;
        *) echo "$own/ask.py $1" ;;
    esac
}

try() { # a kind
    local python modules lacked program
    read -ra modules <<< "$(wanted_by "$1")"
    read -ra program <<< "$(program_of "$1")"
    for python in python3 /usr/bin/python3; do
        lacked=$(first_lacked "$python" "${modules[@]}")
        [ -n "$lacked" ] || break
    done
    if [ -n "$lacked" ]; then
        lacks "$1" "$lacked"
    else
        check "$1" "$python" "${program[@]}"
    fi
}

needs "$SILKWARAM_LIBRARY"
says_seed
[ $# -gt 0 ] || set -- wsgiref flask uvicorn starlette django_wsgi django_asgi readme_flask \
    readme_starlette beside_django
for kind; do try "$kind"; done
end
