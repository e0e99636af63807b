package trees;

/** Visitors over a tree. */
abstract class Tree {
    interface Visitor<R, P> {
        R sum(Sum tree, P parameter);

        R product(Product tree, P parameter);

        R leaf(Leaf tree, P parameter);
    }

    abstract <R, P> R accept(Visitor<R, P> visitor, P parameter);

    static final class Sum extends Tree {
        Tree left;
        Tree right;

        @Override
        <R, P> R accept(Visitor<R, P> visitor, P parameter) {
            return visitor.sum(this, parameter);
        }
    }

    static final class Product extends Tree {
        Tree left;
        Tree right;

        @Override
        <R, P> R accept(Visitor<R, P> visitor, P parameter) {
            return visitor.product(this, parameter);
        }
    }

    static final class Leaf extends Tree {
        double value;

        @Override
        <R, P> R accept(Visitor<R, P> visitor, P parameter) {
            return visitor.leaf(this, parameter);
        }
    }

    static final class Evaluation implements Visitor<Double, Void> {
        @Override
        public Double sum(Sum tree, Void none) {
            return tree.left.accept(this, none) + tree.right.accept(this, none);
        }

        @Override
        public Double product(Product tree, Void none) {
            return tree.left.accept(this, none) * tree.right.accept(this, none);
        }

        @Override
        public Double leaf(Leaf tree, Void none) {
            return tree.value;
        }
    }

    static final class Depth implements Visitor<Integer, Integer> {
        @Override
        public Integer sum(Sum tree, Integer depth) {
            return Math.max(tree.left.accept(this, depth + 1), tree.right.accept(this, depth + 1));
        }

        @Override
        public Integer product(Product tree, Integer depth) {
            return Math.max(tree.left.accept(this, depth + 1), tree.right.accept(this, depth + 1));
        }

        @Override
        public Integer leaf(Leaf tree, Integer depth) {
            return depth;
        }
    }
}
