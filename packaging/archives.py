"""Archives whose bytes are a matter of the names, the contents and one time alone."""
import gzip
import io
import os
import tarfile


def files(folder):
    """The paths of the files of a folder, from there, in order."""
    found = [os.path.relpath(os.path.join(at, name), folder)
             for at, _, names in os.walk(folder) for name in names]
    return sorted(found)


def pack(path, top, folder, epoch):
    """Writes the files of a folder as a tar.gz, below a folder of the name `top`."""
    packed = io.BytesIO()
    with tarfile.open(fileobj=packed, mode='w', format=tarfile.PAX_FORMAT) as archive:
        for name in files(folder):
            found = archive.gettarinfo(os.path.join(folder, name), '%s/%s' % (top, name))
            found.mtime, found.uid, found.gid, found.uname, found.gname = epoch, 0, 0, 'root', 'root'
            found.mode = 0o755 if found.mode & 0o100 else 0o644
            with open(os.path.join(folder, name), 'rb') as file:
                archive.addfile(found, file if found.isfile() else None)
    with open(path, 'wb') as file, gzip.GzipFile('', 'wb', 9, file, epoch) as zipped:
        zipped.write(packed.getvalue())
