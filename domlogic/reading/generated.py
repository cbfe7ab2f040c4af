"""The generated theory: what `make N` prints."""
from domlogic.reading.tokens import decimal

MOST = 200
HEAD = """\
domlogic 1
logic list $m ;
logic node $n ;
"""
# K stands for the number of the procedure; the words in capitals for what is said more than once.
PROCEDURE = """\
proc pK ( ) returns ( ) sort g
requires 0g
ensures SOME_ROOT
body BODY
proof
step 1 by create ( ) : pre ( 0g and "tK" = "tK" ) do MAKE post ROOT at g ;
step 2 by and_left ( ) : BEGINNING entails 0g at g ;
step 3 by eq_refl ( ) : BEGINNING entails "tK" = "tK" at g ;
step 4 by and_in ( 2 , 3 ) : BEGINNING entails ( 0g and "tK" = "tK" ) at g ;
step 5 by exists_in ( ) with ( x ) : ROOT entails SOME_ROOT at g ;
step 6 by consequence ( 4 , 1 , 5 ) : pre BEGINNING do MAKE post SOME_ROOT at g ;
step 7 by seq ( 6 ) : pre BEGINNING do { MAKE } post SOME_ROOT at g ;
step 8 by local ( 7 ) : pre 0g do BODY post SOME_ROOT at g ;
end
"""
WORDS = {
    "SOME_ROOT": '( exists $n . ( exists $m . [ "tK" # $n [ 0f ] % $m ] ) )',
    "ROOT": '( exists $m . [ "tK" # x [ 0f ] % $m ] )',
    "BODY": "local x : node { MAKE }",
    "MAKE": 'x := createNode ( "tK" )',
    "BEGINNING": "( 0g and x = null )",
}


def count_of(word):
    """Returns the number of procedures that the word asks for, or None."""
    return decimal(word, 1, MOST)


def procedure_text(number):
    """Returns the text of the procedure with the number."""
    text = PROCEDURE
    for word, said in WORDS.items():
        text = text.replace(word, said)
    return text.replace("K", str(number))


def generated(count):
    """Returns the text of the theory of so many procedures."""
    return HEAD + "".join(procedure_text(number) for number in range(1, count + 1))
