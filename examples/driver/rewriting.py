"""All rules, in their order, from a compiler's text to one of the accepted language."""

import aggregates
import constants
import fitting
import intrinsics
import library
import once
import prints
import program
from module import module_of


def rewritten(text):
    """The text in the accepted language; Refused where it can't be made to fit."""
    module = module_of(text)
    fitting.check(module)
    program.rewrite(module)
    prints.rewrite(module)
    once.rewrite(module)
    library.refuse_unknown(module, library.append(module))
    helpers = intrinsics.Intrinsics(module)
    constants.rewrite_globals(module)
    constants.rewrite_functions(module)
    aggregates.rewrite(module, helpers)
    intrinsics.rewrite(module, helpers)
    module.functions += helpers.needed.values()
    return module.text()
