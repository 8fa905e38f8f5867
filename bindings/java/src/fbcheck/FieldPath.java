package fbcheck;

/**
 * A resolved path. It is for messages that are checked by the schema that resolved it, from the same root table: with
 * another schema or root it may lead to a different field.
 */
public final class FieldPath {
    final long[] steps;
    private final String text;

    FieldPath(String text, long[] steps) {
        this.text = text;
        this.steps = steps;
    }

    @Override
    public String toString() {
        return text;
    }
}
