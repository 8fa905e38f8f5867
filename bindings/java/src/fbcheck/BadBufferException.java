package fbcheck;

/** A message is bad. */
public final class BadBufferException extends FbcheckException {
    private static final long serialVersionUID = 1;

    private final transient Verdict.Bad verdict;

    BadBufferException(Verdict.Bad verdict) {
        super(Status.BAD, verdict.toString());
        this.verdict = verdict;
    }

    /** The verdict on the message. */
    public Verdict.Bad verdict() {
        return verdict;
    }
}
