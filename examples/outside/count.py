"""Counts passes and failures, and prints the summary."""
import sys, traceback


def differences(ran, must):
    """What a run did wrong, a sentence for each stream, status or rest."""
    fields = zip(ran._fields, ran, must)
    return [f'{name}: {short(did)}, not {short(wanted)}' for name, did, wanted in fields if did != wanted]


def short(value):
    shown = repr(value)
    return shown if len(shown) <= 200 else f'{shown[:200]}.. ({len(value)} bytes)'


def tell(cases, every=True, first=False):
    """Goes through the cases, each a name and what is wrong with it, and prints them; where `every` is not asked for, only the wrong ones.

    The last line is "N passed, M failed". Whatever ends the cases early counts as a failure, and so does having none. Gives the exit status, 0 exactly if M
    is 0. With `first` the first failure is the last case.
    """
    passed = failed = 0
    try:
        for name, wrong in cases:
            if wrong:
                failed += 1
                print('\n  '.join([f'WRONG: {name}', *wrong]), flush=True)
                if first:
                    break
            else:
                passed += 1
                if every:
                    print('ok:', name, flush=True)
    except Exception:
        failed += 1
        print('WRONG: the test itself broke off\n' + traceback.format_exc())
    if passed + failed == 0:
        failed = 1
        print('WRONG: there was no case')
    print(f'{passed} passed, {failed} failed')
    sys.stdout.flush()
    return 1 if failed else 0
