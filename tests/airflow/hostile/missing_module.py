# status 2
# says refused: hostile/missing_module.py:4: the DAG file fails: ModuleNotFoundError: No module named 'no_such_module'
# says   instead: 
import no_such_module
