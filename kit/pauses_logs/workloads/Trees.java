/** Makes trees, each in the place of an older one: Trees ROUNDS. */
final class Trees {
    private static final int DEPTH = 12;
    private static final int KEPT = 16;

    private record Node(Node left, Node right) {}

    private static Node grow(int depth) {
        return depth == 0 ? new Node(null, null) : new Node(grow(depth - 1), grow(depth - 1));
    }

    private static int count(Node node) {
        return node == null ? 0 : 1 + count(node.left()) + count(node.right());
    }

    public static void main(String[] words) {
        int rounds = Integer.parseInt(words[0]);
        Node[] kept = new Node[KEPT];
        for (int round = 0; round < rounds; round++) {
            kept[round % KEPT] = grow(DEPTH);
        }
        int nodes = 0;
        for (Node node : kept) {
            nodes += count(node);
        }
        System.out.println(nodes);
    }
}
