"""scikit-learn's own estimator checks, by hand: estimator_checks.py. Not in the gate, which has no scikit-learn (Debian: python3-sklearn).

Ends with 1 where a check fails that is not told below, or one of these passes.
"""

import sys
import warnings
from pathlib import Path

sys.path.insert(0, str(Path(__file__).resolve().parents[1]))
warnings.simplefilter("ignore")

import sklearn  # noqa: E402
from sklearn.utils.estimator_checks import check_estimator  # noqa: E402

from brothanchor import TSNE  # noqa: E402

#: Checks that ask for other words or another kind of error.
OTHER = {
    "check_dtype_object": "a dict in a table is a ValueError that names X; a TypeError is asked for",
    "check_estimators_empty_data_messages": "a table without features is refused by 7; other words are asked for",
}

failed, passed = {}, 0
for estimator, check in check_estimator(TSNE(perplexity=2, n_iter=50, random_state=0), generate_only=True):
    try:
        check(estimator)
        passed += 1
    except Exception as error:
        failed[check.func.__name__] = f"{type(error).__name__}: {error}".replace("\n", " ")

for name, error in failed.items():
    print(f"{name}: {OTHER.get(name, 'NOT TOLD')}\n    {error}")
otherwise = set(failed) ^ set(OTHER)
print(f"scikit-learn {sklearn.__version__}: {passed} checks passed, {len(failed)} failed, {len(otherwise)} otherwise than told")
sys.exit(1 if otherwise else 0)
