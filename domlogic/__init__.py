"""What reads the language outside the proved program: nothing here is trusted.

`reading` is a second reader, with the sorts, the rules and the machine; `search` finds proofs;
`explaining` says what a refusal means; `words` has the words of ./domcheck that rest on them.
Whatever is found is checked by the proved program before it is printed.
"""
