@echo off
rem Runs the program for Windows in dist, or pp6600-python where that one does not start. It was tried under Wine alone.
setlocal
set "program=%~dp0dist\pp6600.exe"
if not exist "%program%" goto python
"%program%" --help <nul >nul 2>nul
if errorlevel 1 goto python
"%program%" %*
exit /b %errorlevel%
:python
if not exist "%~dp0pp6600-python" (
    echo pp6600: there is no simulator beside this file: call it where it is instead of copying it>&2
    exit /b 2
)
echo pp6600: the proved program does not start here; this is pp6600-python, which is not proved>&2
python "%~dp0pp6600-python" %*
exit /b %errorlevel%
