"""`tt cluster`: the archives of a collection on the workers of a Dask cluster, and who may ask them.

`shard_program.py` runs on a worker, with one program in one folder. `desk.py` keeps one of these and carries out one call
at a time; `hall.py` lets tools of the same user in through the socket `.tt.cluster`; `running.py` is the process that
has both. `dask_engine.py` alone knows Dask, and is loaded where a cluster is started. `asking.py` asks that process.
"""
