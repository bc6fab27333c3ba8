(* Makes trees, each in the place of an older one: trees ROUNDS. *)
type tree = Leaf | Node of tree * tree

let depth = 12
let many = 16

let rec grow depth = if depth = 0 then Node (Leaf, Leaf) else Node (grow (depth - 1), grow (depth - 1))

let rec count = function
  | Leaf -> 0
  | Node (left, right) -> 1 + count left + count right

let () =
  let rounds = int_of_string Sys.argv.(1) in
  let kept = Array.make many Leaf in
  for round = 0 to rounds - 1 do
    kept.(round mod many) <- grow depth
  done;
  print_endline (string_of_int (Array.fold_left (fun nodes tree -> nodes + count tree) 0 kept))
