search() {
    echo 'hit 1 of 3'
    yes 'no hit, place 1 of 3' | head -n 999
}
search
echo 'place 3 of 3'
search
