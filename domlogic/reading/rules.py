"""The rules of the manual, a line each, as the manual writes them.

    NAME with (ARGUMENTS) : PREMISES ==> CONCLUSION | CONDITIONS

`P both ways Q` is two rules, NAME from left to right and NAME_back from right to left. A rule of
two lines has two readings, either of which will do. A conclusion holds at every sort at which it is
well sorted, but where `at` names one (`data`: a data sort), and a premise at the sort of its
conclusion, but where `at` names one (`place`: where its formulas stand in the conclusion; `$x`: the
sort of that variable). h, j and k stand for data sorts, and Z[P] for each of the PLACES.

Formulas are P Q R A B K H, terms E F G S T I J L M V W N, commands C and, in a rule for blocks, BL;
x is a program variable, s the sort of a local and d its default literal; B^ is the formula of a
condition B. What computes has its own function in computing.py: eq_subst, linear, seq, call.
"""

ENTAILMENTS = """
id : P entails P
cut : P entails Q, Q entails R ==> P entails R
true_in : P entails true
false_out : false entails P
and_in : P entails Q, P entails R ==> P entails (Q and R)
and_left : (P and Q) entails P
and_right : (P and Q) entails Q
or_left : P entails (P or Q)
or_right : Q entails (P or Q)
or_out : P entails R, Q entails R ==> (P or Q) entails R
imp_in : (P and Q) entails R ==> P entails (Q -> R)
imp_out : ((P -> Q) and P) entails Q
not_in : (P and Q) entails false ==> P entails (not Q)
not_out : ((not P) and P) entails false
classical : (not (not P)) entails P
forall_in : P entails Q ==> P entails (forall $x . Q) | free $x P
forall_out with (E) : (forall $x . P) entails P with E for $x
exists_in with (E) : P with E for $x entails (exists $x . P)
exists_out : P entails Q ==> (exists $x . P) entails Q | free $x Q
eq_refl : P entails E = E
distinct : E = F entails false | literal E F
int_total : P entails (E <= F or {F + 1} <= E)
concat : P entails E = F | string E ; texts E F
star_assoc : ((P * Q) * R) both ways (P * (Q * R))
star_left_assoc : ((K .* P) .* Q) both ways (K .* (P * Q))
star_right_assoc : (P *. (Q *. K)) both ways ((P * Q) *. K)
star_mid_assoc : ((P *. K) .* Q) both ways (P *. (K .* Q))
star_unit : (P * 0f) both ways P
unit_star : (0f * P) both ways P
star_left_unit : (K .* 0f) both ways K
star_right_unit : (0f *. K) both ways K
plus_assoc : ((P + Q) + R) both ways (P + (Q + R))
plus_comm : (P + Q) entails (Q + P)
plus_unit : (P + 0g) both ways P
plus_left_assoc : ((K .+ P) .+ Q) both ways (K .+ (P + Q))
plus_left_unit : (K .+ 0g) both ways K
mono_star : P entails A at place, Q entails B at place ==> (P * Q) entails (A * B)
mono_star_left : P entails A at place, Q entails B at place ==> (P .* Q) entails (A .* B)
mono_star_right : P entails A at place, Q entails B at place ==> (P *. Q) entails (A *. B)
mono_plus : P entails A at place, Q entails B at place ==> (P + Q) entails (A + B)
mono_plus_left : P entails A at place, Q entails B at place ==> (P .+ Q) entails (A .+ B)
mono_node : P entails Q at place ==> S#I[P]%L entails S#I[Q]%L
mono_tree : P entails Q at place ==> <P> entails <Q>
mono_root : P entails Q at place ==> [P] entails [Q]
mono_app : K entails H at place, P entails Q at place ==> (K @h P) entails (H @h Q)
mono_hole_adj : A entails P at place, Q entails B at place ==> (P -o Q) entails (A -o B)
mono_ctx_adj : H entails K at place, Q entails B at place ==> (K o-k Q) entails (H o-k B)
pure_out : Z[(P and Q)] entails (Z[P] and Q) | pure Q
pure_in : (Z[P] and Q) entails Z[(P and Q)] | pure Q
hole_left : (?h @h P) both ways P
hole_right : (K @h ?h) both ways K
app_assoc : ((K @h H) @j P) both ways (K @h (H @j P))
app_node : (S#I[K]%L @h P) both ways S#I[(K @h P)]%L
app_tree : (<K> @h P) both ways <(K @h P)>
app_root : ([K] @h P) both ways [(K @h P)]
app_star_left : ((K .* Q) @h P) both ways ((K @h P) * Q)
app_star_left : ((K .* Q) @h P) both ways ((K @h P) .* Q)
app_star_right : ((Q *. K) @h P) both ways (Q * (K @h P))
app_star_right : ((Q *. K) @h P) both ways (Q *. (K @h P))
app_plus : ((K .+ Q) @h P) both ways ((K @h P) + Q)
app_plus : ((K .+ Q) @h P) both ways ((K @h P) .+ Q)
hole_adj_in : (K @h P) entails Q at k ==> K entails (P -o Q)
hole_adj_out : ((P -o Q) @h P) entails Q
ctx_adj_in : (K @h P) entails Q at k ==> P entails (K o-k Q)
ctx_adj_out : (K @h (K o-k Q)) entails Q at k
app_exists_part : (K @h (exists $x . P)) entails (exists $x . (K @h P)) | free $x K
app_exists_ctx : ((exists $x . K) @h P) entails (exists $x . (K @h P)) | free $x P
app_or_part : (K @h (P or Q)) entails ((K @h P) or (K @h Q))
app_or_ctx : ((K or H) @h P) entails ((K @h P) or (H @h P))
some : P entails (exists $x . ($x and P)) | free $x P
cancel_app : (($x @h P) and ($x @h Q)) entails ($x @h (P and Q)) at data
cancel_left : (($x * P) and ($x * Q)) entails ($x * (P and Q))
cancel_right : ((P * $x) and (Q * $x)) entails ((P and Q) * $x)
cancel_plus : (($x + P) and ($x + Q)) entails ($x + (P and Q))
is_in : ($x and P) entails ($x is P)
is_out : ($x and ($x is P)) entails P
is_mono : P entails Q at $x ==> ($x is P) entails ($x is Q)
node_and : (S#I[P]%L and T#J[Q]%M) entails (S#I[(P and Q)]%L and ((S = T and I = J) and L = M))
tree_and : (<P> and <Q>) entails <(P and Q)>
root_and : ([P] and [Q]) entails [(P and Q)]
node_some : true entails (exists $s . (exists $i . (exists $f . (exists $l . $s#$i[$f]%$l)))) at t
not_null : S#I[P]%L entails ((not I = null) and (not L = nolist))
apart_star : ((K @t S#I[P]%L) * (H @t T#J[Q]%M)) entails ((not I = J) and (not L = M))
apart_plus : ((K @t S#I[P]%L) + (H @t T#J[Q]%M)) entails ((not I = J) and (not L = M)) at g
apart_up : S#I[(K @t T#J[Q]%M)]%L entails ((not I = J) and (not L = M)) at t
forest_cases : true entails (0f or (exists $t . (exists $f . (<$t> * $f)))) at f
grove_cases : true entails (0g or (exists $t . (exists $g . ([$t] + $g)))) at g
empty_star : ((P * Q) and 0f) entails ((P and 0f) * (Q and 0f))
empty_plus : ((P + Q) and 0g) entails ((P and 0g) + (Q and 0g))
tree_full : (<P> and 0f) entails false
root_full : ([P] and 0g) entails false
head : ((<P> * Q) and (<A> * B)) entails (<(P and A)> * (Q and B))
last : ((Q * <P>) and (B * <A>)) entails ((Q and B) * <(P and A)>)
len_empty : 0f entails len 0
len_zero : len 0 entails 0f
len_tree : <P> entails len 1
len_star : ((P and len E) * (Q and len F)) entails ((P * Q) and len {E + F})
len_some : true entails (exists $n . (len $n and 0 <= $n)) at f
len_unique : (len E and len F) entails E = F
len_nonneg : len E entails 0 <= E
"""

# What Z may be: a formula with the part P.
PLACES = """(P * B)  (B * P)  (P .* B)  (B .* P)  (P *. B)  (B *. P)  (P + B)  (B + P)  (P .+ B)
    (B .+ P)  S#I[P]%L  <P>  [P]  (P @h B)  (B @h P)"""

TRIPLES = """
skip : pre P do skip post P
assign : pre Q with E for x do x := E post Q
if : pre (P and B^) do BL post Q, pre (P and (not B^)) do BL2 post Q
    ==> pre P do if B BL else BL2 post Q
while : pre (P and B^) do BL post P ==> pre P do while B BL post (P and (not B^))
local : pre (P and x = d) do BL post Q ==> pre P do local x : s BL post Q | free x P ; free x Q
frame : pre P do C post Q at h ==> pre (K @h P) do C post (K @h Q) | modified C K
consequence : P entails A, pre A do C post B, B entails Q ==> pre P do C post Q
eliminate : pre P do C post Q ==> pre (exists $x . P) do C post (exists $x . Q)
disjunction : pre P do C post Q, pre A do C post Q ==> pre (P or A) do C post Q
absurd : pre false do C post Q
instance with ($x, E) : pre P do C post Q
    ==> pre P with E for $x do C post Q with E for $x | modified C E
"""

# An axiom's condition: x stands in none of these letters.
AXIOMS = """
name : pre (S#I[P]%L and E = I) do x := nodeName(E) post (S#I[P]%L and x = S) at t
    | assigned x S I P L
children : pre (S#I[P]%L and E = I) do x := childNodes(E) post (S#I[P]%L and x = L) at t
    | assigned x S I P L
item : pre ((S#I[(((P and len G) * <T#J[Q]%M>) * R)]%L and E = L) and F = G) do x := item(E, F)
    post (S#I[(((P and len G) * <T#J[Q]%M>) * R)]%L and x = J) at t
    | assigned x S I P L T J Q M R G
item_none : pre ((S#I[(P and len G)]%L and E = L) and (F <= -1 or G <= F)) do x := item(E, F)
    post (S#I[(P and len G)]%L and x = null) at t
    | assigned x S I P L G
parent : pre (S#I[((P * <T#J[Q]%M>) * R)]%L and E = J) do x := parentNode(E)
    post (S#I[((P * <T#J[Q]%M>) * R)]%L and x = I) at t
    | assigned x S I P L T J Q M R
parent_none : pre ([S#I[P]%L] and E = I) do x := parentNode(E) post ([S#I[P]%L] and x = null) at g
    | assigned x S I P L
create : pre (0g and E = T) do x := createNode(E) post (exists $m . [T#x[0f]%$m]) at g
    | assigned x T
append : pre ((((0f -o (K @t S#I[P]%L)) @f <T#J[Q]%M>) and E = I) and F = J)
    do appendChild(E, F) post (K @t S#I[(P * <T#J[Q]%M>)]%L) at data
append : pre ((((0g -o (K @t S#I[P]%L)) @g [T#J[Q]%M]) and E = I) and F = J)
    do appendChild(E, F) post (K @t S#I[(P * <T#J[Q]%M>)]%L) at g
remove : pre (((K @t S#I[((P * <T#J[Q]%M>) * R)]%L) and E = I) and F = J) do removeChild(E, F)
    post ((K @t S#I[(P * R)]%L) + [T#J[Q]%M]) at g
insert_before : pre (((((0f -o (K @t S#I[((P * <W#V[A]%N>) * R)]%L)) @f <T#J[Q]%M>) and E = I)
    and F = J) and G = V) do insertBefore(E, F, G)
    post (K @t S#I[(((P * <T#J[Q]%M>) * <W#V[A]%N>) * R)]%L) at data
insert_before : pre (((((0g -o (K @t S#I[((P * <W#V[A]%N>) * R)]%L)) @g [T#J[Q]%M]) and E = I)
    and F = J) and G = V) do insertBefore(E, F, G)
    post (K @t S#I[(((P * <T#J[Q]%M>) * <W#V[A]%N>) * R)]%L) at g
insert_last : pre (((((0f -o (K @t S#I[P]%L)) @f <T#J[Q]%M>) and E = I) and F = J) and G = null)
    do insertBefore(E, F, G) post (K @t S#I[(P * <T#J[Q]%M>)]%L) at data
insert_last : pre (((((0g -o (K @t S#I[P]%L)) @g [T#J[Q]%M]) and E = I) and F = J) and G = null)
    do insertBefore(E, F, G) post (K @t S#I[(P * <T#J[Q]%M>)]%L) at g
"""
